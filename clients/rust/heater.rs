//! A test case whose component table is proved, in a program of Rust's own. Copy it to `src/main.rs` of `cargo new --edition 2021`,
//! and there: `RUSTFLAGS="-L native=$(FILSKEAM/ttrun --library)" cargo run --offline > heater.history`

use std::ffi::c_void;
use std::sync::Mutex;
use std::{ptr, thread};

/// A place for a test case, as `filskeam.h` has it. It is not moved while it is open, so it is kept in a box.
#[repr(C)]
struct Place {
    at: *mut c_void,
    is_open: bool,
}

type Call = unsafe extern "C" fn(*mut Place, *const u8, usize, *mut u8, usize, *mut usize) -> u8;

#[link(name = "filskeam", kind = "static")]
extern "C" {
    fn filskeam_open(place: *mut Place, behaviours: u16) -> u8;
    fn filskeam_play(place: *mut Place, text: *const u8, size: usize, room: *mut u8, room_size: usize, count: *mut usize) -> u8;
    fn filskeam_history(place: *mut Place, name: *const u8, size: usize, room: *mut u8, room_size: usize, count: *mut usize) -> u8;
    fn filskeam_close(place: *mut Place) -> u8;
}

/// A test case. Another thread may make the next call: `&mut self` lets only one at a time.
struct Case(Box<Place>);
unsafe impl Send for Case {}

impl Case {
    fn open(behaviours: u16) -> Result<Case, u8> {
        let mut case = Case(Box::new(Place { at: ptr::null_mut(), is_open: false }));
        let number = unsafe { filskeam_open(&mut *case.0, behaviours) };
        if number == 0 { Ok(case) } else { Err(number) }
    }

    /// What a call writes. If the room is too small (3) nothing has changed, and the count says how large it must be.
    fn told(&mut self, call: Call, text: &str) -> Result<String, u8> {
        let (mut room, mut count) = (vec![0; 32], 0);
        loop {
            match unsafe { call(&mut *self.0, text.as_ptr(), text.len(), room.as_mut_ptr(), room.len(), &mut count) } {
                0 => return Ok(String::from_utf8_lossy(&room[..count]).into_owned()),
                3 => room.resize(count, 0),
                number => return Err(number),
            }
        }
    }
}

impl Drop for Case {
    fn drop(&mut self) {
        unsafe { filskeam_close(&mut *self.0) };
    }
}

fn main() -> Result<(), u8> {
    let degrees = 85; // instead of your device
    let case = Mutex::new(Case::open(2)?);
    let play = |call: &str| case.lock().unwrap().told(filskeam_play, call);
    play("0 create named heater")?;
    play("0 start 1 1")?;
    thread::scope(|all| {
        all.spawn(|| play(if degrees > 80 { "1 setverdict fail" } else { "1 setverdict pass" }).and(play("1 finish")));
    });
    play("0 wait done 1")?;
    play("0 finish")?;
    print!("{}", case.lock().unwrap().told(filskeam_history, "t_heater")?);
    Ok(())
}
