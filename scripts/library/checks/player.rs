//! Plays a script over the library and answers as `cmh play` does. The lines are those of docs/formats.md, each well
//! formed.
//!
//! `player [FOLDER] < SCRIPT`: at the end the journals stand in FOLDER/site-N.cmhj.

use cmh::{audit, Edition, Error, Row, Site};
use std::collections::{BTreeMap, VecDeque};
use std::{env, fs, io, path::Path};

const KINDS: [&str; 4] = ["", "request", "reply", "probe"];

struct Peer {
    site: Site,
    journal: Vec<u8>,
}

/// None of a link that was cut.
type Link = Option<VecDeque<Vec<u8>>>;

struct World {
    edition: Edition,
    rows: Vec<(u16, Vec<u16>)>,
    has_begun: bool,
    peers: BTreeMap<u16, Peer>,
    links: BTreeMap<(u16, u16), Link>,
}

fn number_of(error: Error) -> u32 {
    match error {
        Error::Refusal(number) | Error::Topology(number) => number,
        Error::OutOfMemory => 11,
        Error::JournalFull => 12,
        other => panic!("{other}"),
    }
}

fn spelled(numbers: &[u16]) -> Vec<u8> {
    numbers
        .iter()
        .flat_map(|number| number.to_be_bytes())
        .collect()
}

impl World {
    fn open(&self, number: u16) -> Result<Site, Error> {
        let rows: Vec<Row> = self
            .rows
            .iter()
            .map(|(site, processes)| Row {
                site: *site,
                processes,
            })
            .collect();
        Site::new(self.edition, &rows, number)
    }

    fn row(&mut self, site: u16, processes: &[u16]) -> String {
        if self.has_begun {
            return "late".into();
        }
        self.rows.push((site, processes.to_vec()));
        match self.open(site) {
            Ok(_) => "ok".into(),
            Err(error) => {
                self.rows.pop();
                format!("topology {}", number_of(error))
            }
        }
    }

    fn begin(&mut self) {
        if self.has_begun {
            return;
        }
        self.has_begun = true;
        let sites: Vec<u16> = self.rows.iter().map(|row| row.0).collect();
        for number in &sites {
            let mut site = self.open(*number).unwrap();
            let journal = site.header().to_vec();
            self.peers.insert(*number, Peer { site, journal });
            for other in sites.iter().filter(|other| *other != number) {
                self.links.insert((*number, *other), Some(VecDeque::new()));
            }
        }
    }

    fn take(&mut self, site: u16, before: &str, event: &[u8]) -> Result<String, Error> {
        let peer = self.peers.get_mut(&site).unwrap();
        let entry = peer.site.step(event)?;
        peer.journal.extend_from_slice(&entry.bytes);
        let mut answer = format!("{before} sent {}", entry.sendings.len());
        for (to, frame) in entry.sendings {
            if let Some(Some(link)) = self.links.get_mut(&(site, to)) {
                link.push_back(frame);
            }
        }
        if let Some(process) = entry.declared {
            answer += &format!(" declared {process}");
        }
        Ok(answer)
    }

    fn event(&mut self, kind: &str, numbers: &[u16]) -> String {
        let Some(home) = self
            .rows
            .iter()
            .find(|row| row.1.contains(&numbers[0]))
            .map(|row| row.0)
        else {
            return "refused 1".into();
        };
        let event = match kind {
            "ask" => [
                &[1],
                &*spelled(&numbers[..1]),
                &[numbers.len() as u8 - 1],
                &*spelled(&numbers[1..]),
            ]
            .concat(),
            "reply" => [&[2], &*spelled(numbers)].concat(),
            _ => [&[3], &*spelled(numbers)].concat(),
        };
        self.take(home, "ok", &event)
            .unwrap_or_else(|error| format!("refused {}", number_of(error)))
    }

    fn deliver(&mut self, from: u16, to: u16) -> String {
        let frame = match self.links.get(&(from, to)) {
            None => return "bad link".into(),
            Some(None) => return "closed".into(),
            Some(Some(link)) => match link.front() {
                None => return "empty".into(),
                Some(frame) => frame.clone(),
            },
        };
        let mut before = format!("got {}", KINDS[frame[0] as usize]);
        for pair in frame[1..].chunks(2) {
            before += &format!(" {}", u16::from_be_bytes([pair[0], pair[1]]));
        }
        match self.take(to, &before, &[&[4], &*spelled(&[from]), &frame].concat()) {
            Ok(answer) => {
                self.links
                    .get_mut(&(from, to))
                    .unwrap()
                    .as_mut()
                    .unwrap()
                    .pop_front();
                answer
            }
            Err(error) => format!("refused {}", number_of(error)),
        }
    }

    fn cut(&mut self, from: u16, to: u16) -> String {
        match self.links.get_mut(&(from, to)) {
            None => "bad link".into(),
            Some(link) => link.take().map_or("closed".into(), |frames| {
                format!("ok lost {}", frames.len())
            }),
        }
    }

    fn report(&self) -> String {
        let sites: Vec<String> = self
            .rows
            .iter()
            .map(|row| format!("{{\"site\":{},\"processes\":{:?}}}", row.0, row.1))
            .collect();
        let topology = format!(
            "{{\"edition\":{},\"sites\":[{}]}}",
            self.edition as u8,
            sites.join(",")
        );
        let journals: Vec<&[u8]> = self.peers.values().map(|peer| &*peer.journal).collect();
        audit(topology.as_bytes(), &journals)
            .unwrap()
            .text
            .trim_end()
            .into()
    }
}

fn main() {
    let mut world = World {
        edition: Edition::One,
        rows: Vec::new(),
        has_begun: false,
        peers: BTreeMap::new(),
        links: BTreeMap::new(),
    };
    for line in io::stdin().lines().map(Result::unwrap) {
        let mut words = line.split_whitespace();
        let Some(kind) = words.next().filter(|word| !word.starts_with('#')) else {
            continue;
        };
        let numbers: Vec<u16> = words.map(|word| word.parse().unwrap()).collect();
        if !matches!(kind, "edition" | "site") {
            world.begin();
        }
        let answer = match kind {
            "edition" => {
                world.edition = if numbers[0] == 1 {
                    Edition::One
                } else {
                    Edition::Two
                };
                "ok".into()
            }
            "site" => world.row(numbers[0], &numbers[1..]),
            "deliver" => world.deliver(numbers[0], numbers[1]),
            "cut" => world.cut(numbers[0], numbers[1]),
            "report" => world.report(),
            _ => world.event(kind, &numbers),
        };
        println!("{answer}");
    }
    world.begin();
    if let Some(folder) = env::args_os().nth(1) {
        for (number, peer) in &world.peers {
            fs::write(
                Path::new(&folder).join(format!("site-{number}.cmhj")),
                &peer.journal,
            )
            .unwrap();
        }
    }
}
