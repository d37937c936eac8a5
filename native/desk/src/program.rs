//! The built desk program, run in a folder with the files that it finds there.

use std::fs;
use std::io;
use std::path::{Path, PathBuf};
use std::process::{self, Command};
use std::sync::atomic::{AtomicUsize, Ordering};
use std::sync::OnceLock;

/// Where `rt run` in the program's folder, and `rt ci`, put the program.
pub fn built() -> PathBuf {
    Path::new(env!("CARGO_MANIFEST_DIR")).join("../../crates/desk/out/desk")
}

/// A folder for the program to run in, removed in the end.
pub struct Folder {
    path: PathBuf,
}

impl Folder {
    pub fn new() -> io::Result<Folder> {
        static MADE: AtomicUsize = AtomicUsize::new(0);
        let number = MADE.fetch_add(1, Ordering::Relaxed);
        let name = format!("desk-{}-{number}", process::id());
        let path = std::env::temp_dir().join(name);
        fs::create_dir(&path)?;
        Ok(Folder { path })
    }

    pub fn path(&self) -> &Path {
        &self.path
    }

    pub fn game(&self) -> PathBuf {
        self.path.join("game.bin")
    }

    pub fn plan(&self) -> PathBuf {
        self.path.join("plan.bin")
    }

    /// Writes both files.
    pub fn put(&self, game: &[u8], plan: &[u8]) -> io::Result<()> {
        fs::write(self.game(), game)?;
        fs::write(self.plan(), plan)
    }

    /// The program, to be run here.
    pub fn command(&self) -> Command {
        let mut command = Command::new(built());
        command.current_dir(&self.path);
        command
    }

    /// What the program prints here.
    pub fn printed(&self) -> io::Result<String> {
        printed(&mut self.command())
    }
}

impl Drop for Folder {
    fn drop(&mut self) {
        let removed = fs::remove_dir_all(&self.path);
        if let Err(error) = removed {
            eprintln!("{} stays: {error}", self.path.display());
        }
    }
}

/// What a program prints. It must end well and write no errors.
pub fn printed(command: &mut Command) -> io::Result<String> {
    let output = command.output().map_err(|error| {
        let program = command.get_program().display();
        io::Error::new(error.kind(), format!("{program}: {error}"))
    })?;
    if !output.status.success() || !output.stderr.is_empty() {
        let errors = String::from_utf8_lossy(&output.stderr);
        return Err(io::Error::other(format!("{}: {errors}", output.status)));
    }
    String::from_utf8(output.stdout).map_err(io::Error::other)
}

/// The calls of `tests/calls.c`, built once into a folder, to be loaded before the C library's.
pub fn scripted_calls(folder: &str) -> &'static Path {
    static BUILT: OnceLock<PathBuf> = OnceLock::new();
    BUILT.get_or_init(|| {
        let source = Path::new(env!("CARGO_MANIFEST_DIR")).join("tests/calls.c");
        let library = Path::new(folder).join("calls.so");
        let mut compiler = Command::new("cc");
        compiler.args(["-Wall", "-Wextra", "-Werror", "-shared", "-fPIC", "-o"]);
        let text = printed(compiler.arg(&library).arg(source)).expect("the calls are built");
        assert_eq!(text, "");
        library
    })
}
