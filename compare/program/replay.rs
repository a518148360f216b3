//! Reads a data file of cases back and judges each again.

use std::fs;

use crate::{generate::Case, oracle, words::Answer};

struct Bytes<'a> {
    left: &'a [u8],
}

impl<'a> Bytes<'a> {
    fn take(&mut self, count: usize) -> Result<&'a [u8], String> {
        if self.left.len() < count {
            return Err("The data file ends too early.".into());
        }
        let (taken, left) = self.left.split_at(count);
        self.left = left;
        Ok(taken)
    }

    fn u32(&mut self) -> Result<usize, String> {
        Ok(u32::from_le_bytes(self.take(4)?.try_into().unwrap()) as usize)
    }

    fn word(&mut self) -> Result<u64, String> {
        let count = self.take(1)?[0] as usize;
        let mut bytes = [0; 8];
        let taken = self.take(count)?;
        bytes.get_mut(..count).ok_or("A word has more than eight bytes.")?.copy_from_slice(taken);
        Ok(u64::from_le_bytes(bytes))
    }

    fn words(&mut self, length: usize) -> Result<Vec<u64>, String> {
        let count = self.u32()?;
        let mut words = (0..count).map(|_| self.word()).collect::<Result<Vec<_>, _>>()?;
        if count > length {
            return Err("A list is longer than what was lent.".into());
        }
        words.resize(length, 0);
        Ok(words)
    }

    fn case(&mut self) -> Result<(Case, Answer), String> {
        let (length, body, la, lt) = (self.u32()?, self.u32()?, self.u32()?, self.u32()?);
        let mut file = self.take(body)?.to_vec();
        let tail = self.take(if length < 2 { 0 } else { 2 })?;
        file.resize(length - tail.len(), 0);
        file.extend_from_slice(tail);
        let mut result = [0; 12];
        for word in &mut result {
            *word = self.word()?;
        }
        let (actions, temporaries) = (self.words(la)?, self.words(lt)?);
        Ok((Case { file, la, lt }, Answer { result, actions, temporaries }))
    }
}

pub fn replay(path: &str) -> Result<(), String> {
    let data = fs::read(path).map_err(|e| format!("{path}: {e}"))?;
    let mut bytes = Bytes { left: &data };
    let (count, mut differ) = (bytes.u32()?, 0);
    for i in 0..count {
        let (case, answer) = bytes.case()?;
        let right = oracle::judge(&case.file, case.la, case.lt).map_err(|broken| broken.0)?;
        if right != answer {
            println!("case {i}: result {:?}, not {:?}", answer.result, right.result);
            differ += 1;
        }
    }
    println!("{count} cases, {differ} differ, {} bytes left over", bytes.left.len());
    if differ == 0 && bytes.left.is_empty() {
        Ok(())
    } else {
        Err("The data file is wrong.".into())
    }
}
