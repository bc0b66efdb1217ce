/// The largest size of a memory.
pub const MAX_SIZE: u32 = 4096;

/// What a memory refuses.
#[derive(Clone, Copy, PartialEq, Eq, Debug)]
pub enum Fault {
    UnknownAddress,
    Unreadable { block: u32 },
}

/// A size and, for each address below it, a word or the mark unreadable.
pub trait Memory {
    fn size(&self) -> u32;
    fn read(&self, address: u32) -> Result<u32, Fault>;
    fn write(&mut self, address: u32, word: u32) -> Result<(), Fault>;
}

/// A row of words. Each may have the mark instead.
#[derive(Clone, PartialEq, Eq, Debug)]
pub struct Words {
    words: Vec<u32>,
    /// Address and block of each mark, by address.
    marks: Vec<(u32, u32)>,
}

impl Words {
    /// What lies past 4,096 is no part of it.
    pub fn new(mut words: Vec<u32>) -> Self {
        words.truncate(MAX_SIZE as usize);
        Words { words, marks: Vec::new() }
    }

    pub fn zero(size: u32) -> Self {
        Words::new(vec![0; size.min(MAX_SIZE) as usize])
    }

    /// Marks an address as unreadable, with its block.
    pub fn mark(mut self, address: u32, block: u32) -> Self {
        assert!(address < self.size(), "a mark stands below the size");
        match self.marks.binary_search_by_key(&address, |m| m.0) {
            Ok(i) => self.marks[i].1 = block,
            Err(i) => self.marks.insert(i, (address, block)),
        }
        self
    }

    #[inline]
    fn check(&self, address: u32) -> Result<(), Fault> {
        if address >= self.size() {
            return Err(Fault::UnknownAddress);
        }
        if !self.marks.is_empty()
            && let Ok(i) = self.marks.binary_search_by_key(&address, |m| m.0)
        {
            return Err(Fault::Unreadable { block: self.marks[i].1 });
        }
        Ok(())
    }
}

impl Memory for Words {
    #[inline]
    fn size(&self) -> u32 {
        self.words.len() as u32
    }

    #[inline]
    fn read(&self, address: u32) -> Result<u32, Fault> {
        self.check(address)?;
        Ok(self.words[address as usize])
    }

    #[inline]
    fn write(&mut self, address: u32, word: u32) -> Result<(), Fault> {
        self.check(address)?;
        self.words[address as usize] = word;
        Ok(())
    }
}
