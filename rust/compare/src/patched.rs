//! A library that is wrong on purpose: the second implementation with some of
//! its functions replaced.

use crate::lent_record::Record;
use crate::library::Library;
use crate::second::Second;

type Check = dyn Fn(&mut [u8]) -> u8;
type Read = dyn Fn(&mut [u8], &mut [u16]) -> u8;
type Write = dyn Fn(&mut [u16], &mut [u8]) -> u8;
type Run = dyn Fn(&mut [u8], &mut [u8], &mut [u8]) -> usize;
type State = dyn Fn(&mut [u8], &mut [u8], &mut [u16]) -> u64;
type Fresh = dyn Fn(&mut Record, [u8; 4]) -> u8;
type Order = dyn Fn(&mut Record, u16, &mut [u8]) -> u64;
type Hear = dyn Fn(&mut Record, &mut [u8], &mut [u8]) -> u64;
type Beacon = dyn Fn(&mut Record, &mut [u8]) -> u8;
type WriteLog = dyn Fn(&mut [u16], &mut [u8]) -> u32;
type ReadLog = dyn Fn(&mut [u8], &mut [u16]) -> u32;
type FirstBad = dyn Fn(&mut [u8]) -> u32;

pub struct Patched {
    pub frame_check: Box<Check>,
    pub frame_read: Box<Read>,
    pub frame_write: Box<Write>,
    pub run_script: Box<Run>,
    pub script_state: Box<State>,
    pub post_fresh: Box<Fresh>,
    pub post_order: Box<Order>,
    pub post_hear: Box<Hear>,
    pub post_beacon: Box<Beacon>,
    pub csv_write: Box<WriteLog>,
    pub csv_read: Box<ReadLog>,
    pub csv_first_bad: Box<FirstBad>,
}

impl Default for Patched {
    fn default() -> Patched {
        Patched {
            frame_check: Box::new(|bytes| Second.frame_check(bytes)),
            frame_read: Box::new(|bytes, fields| Second.frame_read(bytes, fields)),
            frame_write: Box::new(|fields, buffer| Second.frame_write(fields, buffer)),
            run_script: Box::new(|script, air, output| Second.run_script(script, air, output)),
            script_state: Box::new(|script, air, state| Second.script_state(script, air, state)),
            post_fresh: Box::new(|post, asked| Second.post_fresh(post, asked)),
            post_order: Box::new(|post, word, buffer| Second.post_order(post, word, buffer)),
            post_hear: Box::new(|post, frame, buffer| Second.post_hear(post, frame, buffer)),
            post_beacon: Box::new(|post, buffer| Second.post_beacon(post, buffer)),
            csv_write: Box::new(|numbers, buffer| Second.csv_write(numbers, buffer)),
            csv_read: Box::new(|file, numbers| Second.csv_read(file, numbers)),
            csv_first_bad: Box::new(|file| Second.csv_first_bad(file)),
        }
    }
}

impl Library for Patched {
    fn frame_check(&self, bytes: &mut [u8]) -> u8 {
        (self.frame_check)(bytes)
    }

    fn frame_read(&self, bytes: &mut [u8], fields: &mut [u16]) -> u8 {
        (self.frame_read)(bytes, fields)
    }

    fn frame_write(&self, fields: &mut [u16], buffer: &mut [u8]) -> u8 {
        (self.frame_write)(fields, buffer)
    }

    fn run_script(&self, script: &mut [u8], air: &mut [u8], output: &mut [u8]) -> usize {
        (self.run_script)(script, air, output)
    }

    fn script_state(&self, script: &mut [u8], air: &mut [u8], state: &mut [u16]) -> u64 {
        (self.script_state)(script, air, state)
    }

    fn post_fresh(&self, post: &mut Record, asked: [u8; 4]) -> u8 {
        (self.post_fresh)(post, asked)
    }

    fn post_order(&self, post: &mut Record, word: u16, buffer: &mut [u8]) -> u64 {
        (self.post_order)(post, word, buffer)
    }

    fn post_hear(&self, post: &mut Record, frame: &mut [u8], buffer: &mut [u8]) -> u64 {
        (self.post_hear)(post, frame, buffer)
    }

    fn post_beacon(&self, post: &mut Record, buffer: &mut [u8]) -> u8 {
        (self.post_beacon)(post, buffer)
    }

    fn csv_write(&self, numbers: &mut [u16], buffer: &mut [u8]) -> u32 {
        (self.csv_write)(numbers, buffer)
    }

    fn csv_read(&self, file: &mut [u8], numbers: &mut [u16]) -> u32 {
        (self.csv_read)(file, numbers)
    }

    fn csv_first_bad(&self, file: &mut [u8]) -> u32 {
        (self.csv_first_bad)(file)
    }
}
