//! The product's small program, held against the reference's lines.

use std::io::{self, ErrorKind, Read, Write};
use std::process::{Command, Stdio};

use reference::generate::{map_a, map_b, map_of_zones, record_of_zones, with_bytes};
use reference::geometry::Edition;
use reference::lines::{lines, LONGEST_MAP};
use reference::map::check;

pub struct Program {
    pub path: String,
    pub runs: u64,
    pub differences: u64,
}

impl Program {
    /// What the program prints for a map.
    fn printed(&self, map: &[u8]) -> io::Result<String> {
        let mut child = Command::new(&self.path)
            .stdin(Stdio::piped())
            .stdout(Stdio::piped())
            .spawn()?;
        let written = child.stdin.take().expect("it is piped").write_all(map);
        // A map that is too long need not be read to its end.
        if let Err(error) = written {
            if error.kind() != ErrorKind::BrokenPipe {
                return Err(error);
            }
        }
        let mut text = String::new();
        child
            .stdout
            .take()
            .expect("it is piped")
            .read_to_string(&mut text)?;
        child.wait()?;
        Ok(text)
    }

    pub fn compare(&mut self, name: &str, map: &[u8]) -> io::Result<()> {
        self.runs += 1;
        if self.printed(map)? != lines(map) {
            self.differences += 1;
            println!("{} differs on {name}, {} bytes", self.path, map.len());
        }
        Ok(())
    }

    /// Maps A and B, A with a dirty record (R-7 of document 02), no bytes, lengths
    /// around the longest that is read, and the two valid maps of many zones of
    /// each edition nearest to it. of document 02 do not raise that
    /// length, so that the longer of them are refused.
    pub fn compare_fixed(&mut self) -> io::Result<()> {
        let mut long = map_a();
        long.resize(LONGEST_MAP + 1, 0);
        let dirty = with_bytes(&map_a(), 63, &[1]);
        let of_zones = |log2secsize, nzones, edition| {
            map_of_zones(&record_of_zones(log2secsize, nzones, edition))
        };
        let shorter = of_zones(8, 255, Edition::E);
        let longer = of_zones(9, 129, Edition::E);
        let longest = of_zones(8, 256, Edition::EPlus);
        let too_long = of_zones(8, 257, Edition::EPlus);
        assert!(shorter.len() < LONGEST_MAP && longer.len() > LONGEST_MAP);
        assert!(longest.len() == LONGEST_MAP && too_long.len() > LONGEST_MAP);
        let maps = [&shorter, &longer, &longest, &too_long];
        assert!(maps.into_iter().all(|map| check(map).is_ok()));
        for (name, map) in [
            ("map A", &map_a()[..]),
            ("map B", &map_b()[..]),
            ("map A with a dirty record", &dirty[..]),
            ("no bytes", &[]),
            ("as many bytes as are read", &long[..LONGEST_MAP]),
            ("a byte more", &long[..]),
            (
                "a byte more, a record outside its ranges",
                &vec![0; LONGEST_MAP + 1][..],
            ),
            ("a map of 255 zones of 256 bytes", &shorter[..]),
            ("a map of 129 zones of 512 bytes", &longer[..]),
            ("an E+ map of 256 zones of 256 bytes", &longest[..]),
            ("an E+ map of 257 zones of 256 bytes", &too_long[..]),
        ] {
            self.compare(name, map)?;
        }
        Ok(())
    }
}
