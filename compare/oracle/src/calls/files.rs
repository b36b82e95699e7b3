//! Delay files: random good ones, damaged copies of them and of what a session writes,
//! words that are no bytes.
use super::Calls;
use crate::files::{bytes_of, entries, file_of, word_of, Entry};
use std::collections::BTreeMap;

const HEAD: usize = 7;
const ENTRY: usize = 20;

impl Calls {
    /// Files by themselves.
    pub(super) fn files(&mut self) {
        for _ in 0..self.r.pick(&[5, 20, 60]) {
            let file = self.good_file();
            self.read(file);
        }
    }

    /// The table of the supervisor at hand: written, read back, read damaged.
    pub(super) fn write(&mut self) {
        if let Some(file) = self.written() {
            self.read(file);
        }
    }

    /// A supervisor that loads a file, the one that the last supervisor writes or a
    /// random one: it must write the file back.
    pub(super) fn load(&mut self) {
        let file = match self.r.chance(50) {
            true => self.written(),
            false => Some(self.good_file()),
        };
        let Some(file) = file else { return };
        self.call(format!("dread1 {}", word_of(&file)));
        let mut new = self.settings();
        let number = |e: Entry| (u128::from_be_bytes(e.0), e.1);
        new.loaded = entries(&file).expect("a delay file").into_iter().map(number).collect();
        if self.call(new.line()) {
            let back = self.written();
            assert_eq!(back, Some(file), "a file that did not come back from the Rust's table");
        }
    }

    /// What `dwrite1` answers, now and then with short lists too.
    fn written(&mut self) -> Option<Vec<u8>> {
        if self.r.chance(5) {
            self.call("!5 dwrite1".into());
        }
        let accepted = self.call("dwrite1".into());
        let word = self.lines.last()?.1.rsplit(' ').next()?.to_string();
        accepted.then(|| bytes_of(&word).expect("hex"))
    }

    /// Read a file, or a damaged copy of it, or a word that is no bytes.
    fn read(&mut self, mut file: Vec<u8>) {
        if self.r.chance(75) {
            self.damage(&mut file);
        }
        let word = word_of(&file);
        let word = if self.r.chance(6) { self.no_bytes(word) } else { word };
        let short = if self.r.chance(6) { "!5 " } else { "" };
        self.call(format!("{short}dread1 {word}"));
    }

    fn good_file(&mut self) -> Vec<u8> {
        let near = self.flow().to_be_bytes();
        let count = self.r.pick(&[0, 1, 1, 2, 2, 3, 5, 18, 63, 64]);
        let mut table = BTreeMap::new();
        while table.len() < count {
            let (mut flow, any) = (near, self.flow());
            match self.r.below(3) {
                0 => flow = any.to_be_bytes(),
                1 => flow[self.r.below(16) as usize] = self.r.next() as u8,
                _ => flow[self.r.pick(&[0, 7, 8, 15])] = self.r.next() as u8,
            }
            let any = self.r.next() as u32;
            table.insert(flow, self.r.pick(&[0, 1, 255, 256, 0x0102_0304, any >> 16, any, u32::MAX]));
        }
        file_of(table.into_iter().collect())
    }

    fn damage(&mut self, file: &mut Vec<u8>) {
        let any = self.r.next();
        let place = self.r.below(file.len() as u64) as usize;
        let count = (file.len() - HEAD) / ENTRY;
        match self.r.below(11) {
            0 => file.truncate(place),
            1 => file.extend(&vec![self.r.pick(&[0, 0, any as u8]); self.r.pick(&[1, 1, 19, 20, 21])]),
            2 => file[place] ^= 1 << self.r.below(8),
            3 => file[place % HEAD] = any as u8,
            4 => file[5] = file[5].wrapping_add(self.r.pick(&[1, 255, 64])),
            5 => file[6] = self.r.pick(&[1, 255]),
            6 => file.resize(self.r.pick(&[1286, 1287, 1288, 1291, 1292, 1293, 1307, 5000]), 0),
            // 65 flows, which rise
            7 => {
                let entry = |k: u8| ([k; 16], u32::from(k));
                *file = file_of((0..65).map(entry).collect());
            }
            _ if count < 2 => file.truncate(place),
            // a flow again, or two exchanged, or one byte of a flow as in the flow before
            way => {
                let k = 1 + self.r.below(count as u64 - 1) as usize;
                let (a, b) = (HEAD + ENTRY * (k - 1), HEAD + ENTRY * k);
                for j in 0..16 {
                    match way {
                        8 => file[b + j] = file[a + j],
                        9 => file.swap(a + j, b + j),
                        _ if j == place % 16 => file[b + j] = file[a + j],
                        _ => (),
                    }
                }
            }
        }
    }

    fn no_bytes(&mut self, word: String) -> String {
        let odd = word[1..].to_string();
        let large = word.replacen('c', "C", 1);
        self.r.pick(&[odd, large, format!("{word}0"), format!("{word}0g"), format!("{word} 00"), format!("{word}-"), String::new(), "--".into()])
    }
}
