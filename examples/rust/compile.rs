//! Compiles a plan by the library, writes its module to a file, and prints a line for each of its imports.
//!
//! `compile PLAN.json MODULE.wasm` ends with the status of the call, with 3 where the plan is not read, and with 4 where the module is not written.
//! README.md, "As a library", has the command that builds it. The module `factc` below is what a program takes over: a safe `compile` over
//! the declarations of `include/factc.h`. The build script of a package of Cargo prints the words of that command for each of the two archives:
//! `cargo:rustc-link-search=native=FOLDER`, and `cargo:rustc-link-lib=static=fact_c` or `static=libc_c`.

use std::{env, fs, process::ExitCode};

mod factc {
    //! The library: `include/factc.h` says what each number is.

    /// Where a text stands in that of a module: its first byte, and how many it has.
    #[repr(C)]
    #[derive(Clone, Copy, Default)]
    pub struct Text {
        pub at: usize,
        pub size: usize,
    }

    /// `struct factc_definition`.
    #[repr(C)]
    #[derive(Clone, Copy, Default)]
    pub struct Definition {
        pub kind: u32,
        pub number: u32,
        pub width: u32,
        pub name: Text,
    }

    /// `struct factc_import`.
    #[repr(C)]
    #[derive(Clone, Copy, Default)]
    pub struct Import {
        pub kind: u32,
        pub operation: u32,
        pub first: Definition,
        pub second: Definition,
        pub module: Text,
        pub name: Text,
        pub line: Text,
    }

    /// `struct factc_sizes`.
    #[repr(C)]
    #[derive(Clone, Copy, Default)]
    struct Sizes {
        bytes: usize,
        imports: usize,
        text: usize,
    }

    unsafe extern "C" {
        fn factc_compile_into(
            plan: *const u8,
            plan_size: usize,
            debug: bool,
            fuel: u32,
            bytes: *mut u8,
            bytes_room: usize,
            imports: *mut Import,
            imports_room: usize,
            text: *mut u8,
            text_room: usize,
            sizes: *mut Sizes,
        ) -> u32;
    }

    const DONE: u32 = 0;
    const NO_ROOM: u32 = 10;

    /// A module, what it imports, and the texts of that.
    pub struct Module {
        pub bytes: Vec<u8>,
        pub imports: Vec<Import>,
        text: Vec<u8>,
    }

    impl Module {
        /// A text of one of its imports.
        pub fn text(&self, text: Text) -> &str {
            std::str::from_utf8(&self.text[text.at..text.at + text.size]).expect("the texts of a module are UTF-8")
        }
    }

    /// Why there is no module: a status of `enum factc_status`, and the line that tells it, which ends in a newline.
    pub struct Refusal {
        pub status: u32,
        pub line: String,
    }

    /// The module of a plan.
    pub fn compile(plan: &[u8], debug: bool, fuel: u32) -> Result<Module, Refusal> {
        let (mut bytes, mut imports, mut text) = (vec![0; 16384], vec![Import::default(); 64], vec![0; 16384]);
        loop {
            let mut sizes = Sizes::default();
            // SAFETY: each pointer is that of a slice, with its length, the slices are apart, and the declarations are those of factc.h.
            let status = unsafe {
                factc_compile_into(
                    plan.as_ptr(),
                    plan.len(),
                    debug,
                    fuel,
                    bytes.as_mut_ptr(),
                    bytes.len(),
                    imports.as_mut_ptr(),
                    imports.len(),
                    text.as_mut_ptr(),
                    text.len(),
                    &mut sizes,
                )
            };
            if status == NO_ROOM {
                bytes.resize(bytes.len().max(sizes.bytes), 0);
                imports.resize(imports.len().max(sizes.imports), Import::default());
                text.resize(text.len().max(sizes.text), 0);
                continue;
            }
            bytes.truncate(sizes.bytes);
            imports.truncate(sizes.imports);
            text.truncate(sizes.text);
            return match status {
                DONE => Ok(Module { bytes, imports, text }),
                _ => Err(Refusal { status, line: String::from_utf8_lossy(&text).into_owned() }),
            };
        }
    }
}

const FUEL: u32 = 1000;

fn run(plan: &str, module: &str) -> Result<(), (u8, String)> {
    let bytes = fs::read(plan).map_err(|error| (3, format!("{plan}: {error}\n")))?;
    let compiled = factc::compile(&bytes, false, FUEL).map_err(|refusal| (refusal.status as u8, format!("{plan}: {}", refusal.line)))?;
    fs::write(module, &compiled.bytes).map_err(|error| (4, format!("{module}: {error}\n")))?;
    for import in &compiled.imports {
        print!("{} {}: {}", compiled.text(import.module), compiled.text(import.name), compiled.text(import.line));
    }
    Ok(())
}

fn main() -> ExitCode {
    let words: Vec<String> = env::args().skip(1).collect();
    let [plan, module] = words.as_slice() else {
        eprintln!("usage: compile PLAN.json MODULE.wasm");
        return ExitCode::from(2);
    };
    match run(plan, module) {
        Ok(()) => ExitCode::SUCCESS,
        Err((status, line)) => {
            eprint!("{line}");
            ExitCode::from(status)
        }
    }
}
