//! Draws each line that is an argument as SVG, below one another: rustc svg.rs -l labels
use std::ffi::CStr;
use std::fmt::Write;
use std::os::raw::{c_char, c_int};

/// `labels_answer` of labels.h.
#[repr(C)]
struct Answer {
    code: u32,
    reserved: u32,
    length: usize,
    at: usize,
    message_length: usize,
    message: [c_char; 96],
}

/// `labels_symbol_info` of labels.h.
#[repr(C)]
struct Info {
    symbology: u32,
    width: u32,
    rows: u32,
    height: u32,
    left: u32,
    right: u32,
    top: u32,
    bottom: u32,
    version: u32,
    level: u32,
    mask: u32,
    reserved: [u32; 5],
    data_length: usize,
    data: [c_char; 656],
}

const OK: c_int = 0;
const SKIPPED: c_int = 14;
const MAX_MODULES: usize = 3249;

extern "C" {
    fn labels_line(
        options: *const u32,
        text: *const u8,
        size: usize,
        modules: *mut u8,
        room: usize,
        info: *mut Info,
        answer: *mut Answer,
    ) -> c_int;
}

/// A symbol as its modules show it.
struct Symbol {
    info: Info,
    modules: Vec<u8>,
}

/// Returns the symbol of a line, `None` for an empty line or a comment.
///
/// # Errors
///
/// Why the line is refused.
fn symbol_of(line: &str) -> Result<Option<Symbol>, String> {
    let mut modules = vec![0; MAX_MODULES];
    // Structs of numbers may be all zeros, and the call sets them.
    let (mut info, mut answer): (Info, Answer) = unsafe { std::mem::zeroed() };
    // The pointers point to as many bytes as the lengths say, and no two of them overlap.
    let code = unsafe {
        let (text, room) = (line.as_ptr(), modules.len());
        labels_line(std::ptr::null(), text, line.len(), modules.as_mut_ptr(), room, &mut info, &mut answer)
    };
    match code {
        OK => Ok(Some(Symbol { info, modules })),
        SKIPPED => Ok(None),
        // A message ends with a NUL.
        _ => Err(unsafe { CStr::from_ptr(answer.message.as_ptr()) }.to_string_lossy().into_owned()),
    }
}

impl Symbol {
    /// Returns the path of what is dark, `top` modules further down.
    fn path(&self, top: u32) -> String {
        let Info { width, rows, height, left, .. } = self.info;
        let mut path = String::new();
        for y in 0..rows {
            for x in (0..width).filter(|x| self.modules[(y * width + x) as usize] == 1) {
                let (x, y, high) = (left + x, top + self.info.top + y, height / rows);
                write!(path, "M{x} {y}h1v{high}h-1z").expect("a text takes all");
            }
        }
        path
    }

    /// Returns the width and the height with the quiet zones, in modules.
    fn size(&self) -> (u32, u32) {
        let Info { width, height, left, right, top, bottom, .. } = self.info;
        (left + width + right, top + height + bottom)
    }
}

fn main() {
    let (mut path, mut width, mut height) = (String::new(), 1, 1);
    for line in std::env::args().skip(1) {
        match symbol_of(&line) {
            Ok(Some(symbol)) => {
                path += &symbol.path(height);
                width = width.max(symbol.size().0);
                height += symbol.size().1 + 9;
            }
            Ok(None) => {}
            Err(reason) => eprintln!("{reason}"),
        }
    }
    println!(
        "<svg xmlns='http://www.w3.org/2000/svg' viewBox='0 0 {width} {height}' width='{}'>\
         <path fill='white' d='M0 0h{width}v{height}h-{width}z'/><path d='{path}'/></svg>",
        4 * width
    );
}
