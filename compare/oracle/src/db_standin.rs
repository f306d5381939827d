// What db.rs takes from the crate page_size and from functions that depend on the system, which the papers lack.

mod page_size {
    pub fn get() -> usize {
        unsafe { libc::sysconf(libc::_SC_PAGESIZE) as usize }
    }
}

fn open_file(path: &Path, create: bool, direct_write: bool) -> Result<File> {
    let mut options = FileOpenOptions::new();
    options.read(true).write(true).create_new(create);
    if direct_write {
        options.custom_flags(libc::O_DIRECT);
    }
    Ok(options.open(path)?)
}

fn mmap(file: &File, populate: bool) -> Result<Mmap> {
    let mut options = memmap2::MmapOptions::new();
    if populate {
        options.populate();
    }
    Ok(unsafe { options.map(file)? })
}
