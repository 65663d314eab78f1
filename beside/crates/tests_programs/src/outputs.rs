//! An output on the disk. What each folder has afterwards was written down by hand.
use hashbag_shell::one_file::is_one_file;
use hashbag_shell::output_file::OutputFile;
use std::test::Fail;
use std::{env, fs, process};

// The names in a folder, in order.
fn names_in(rt: &HostRuntime, folder: &str) -> Result<Vec<String>, Fail> {
    let alloc = rt.alloc();
    let mut names = Vec::new(alloc);
    for entry in fs::read_dir(rt, folder)? {
        names.push(entry?.file_name().to_string(alloc)?)?;
    }
    names.sort()?;
    Ok(names)
}

// The text of the file `out` in a folder.
fn text_in(rt: &HostRuntime, folder: &str) -> Result<String, Fail> {
    let out = format!(in rt.alloc(); "{folder}/out")?;
    Ok(fs::read_to_string(rt, out.as_str())?)
}

// The text of the file `out` in a folder, and the names there, in one line.
fn state_of(rt: &HostRuntime, folder: &str) -> Result<String, Fail> {
    let mut state = text_in(rt, folder)?;
    state.push_str(":")?;
    for name in &names_in(rt, folder)? {
        state.push_str(" ")?;
        state.push_str(name.as_str())?;
    }
    Ok(state)
}

// Checks that the folder is in this state.
fn is_state(rt: &HostRuntime, folder: &str, wanted: &str) -> Result<(), Fail> {
    let state = state_of(rt, folder)?;
    if state.as_str() == wanted {
        return Ok(());
    }
    Err(Fail::new(format_args!("{state:?}, not {wanted:?}")))
}

// Two outputs of one name at a time: the first is written, and the second abandoned.
fn two_at_a_time(rt: &HostRuntime, folder: &str, name: &str) -> Result<(), Fail> {
    let first = OutputFile::open(rt, name)?;
    let second = OutputFile::open(rt, name)?;
    is_state(rt, folder, "old: .hashbag-0.tmp .hashbag-1.tmp out")?;
    first.write_whole(rt, b"new")?;
    is_state(rt, folder, "new: .hashbag-1.tmp out")?;
    second.abandon(rt);
    is_state(rt, folder, "new: out")
}

// Whether another name of the file, and another file with the same text, are one file with it.
fn are_one_file(rt: &HostRuntime, folder: &str, name: &str) -> Result<(bool, bool), Fail> {
    let long = format!(in rt.alloc(); "{folder}/./out")?;
    let other = format!(in rt.alloc(); "{folder}/other")?;
    fs::write(rt, other.as_str(), "new")?;
    Ok((
        is_one_file(rt, name, long.as_str()),
        is_one_file(rt, name, other.as_str()),
    ))
}

// Outputs of this name in this folder.
fn written_in(rt: &HostRuntime, folder: &str, name: &str) -> Result<(), Fail> {
    OutputFile::open(rt, name)?.write_whole(rt, b"old")?;
    is_state(rt, folder, "old: out")?;
    two_at_a_time(rt, folder, name)?;
    if OutputFile::open(rt, folder).is_ok() {
        return Err(Fail::new("a folder is opened as output"));
    }
    match are_one_file(rt, folder, name)? {
        (true, false) => Ok(()),
        _ => Err(Fail::new("other files are one file")),
    }
}

// The folder is made before, and removed afterwards.
fn written_in_new(rt: &HostRuntime, folder: &str) -> Result<(), Fail> {
    fs::create_dir(rt, folder)?;
    let name = format!(in rt.alloc(); "{folder}/out")?;
    written_in(rt, folder, name.as_str())?;
    fs::remove_dir_all(rt, folder)?;
    Ok(())
}

#[test]
fn an_output_is_written_whole_or_not_at_all(rt: HostRuntime) -> Result<(), Fail> {
    let number = process::id(rt.process());
    let above = env::temp_dir(&rt)?;
    let folder = format!(in rt.alloc(); "{}/hashbag_shell_{number}", above.display())?;
    written_in_new(&rt, folder.as_str())
}
