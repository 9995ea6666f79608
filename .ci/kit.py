"""The kit's own library, for what no command of rt's does: checks of changed copies of a crate, and an archive over the libraries that
rt ci has just proved."""
import hashlib, os, re, shutil, subprocess, sys, tempfile, threading

ROOT = os.path.dirname(os.path.dirname(os.path.abspath(__file__)))
RT = shutil.which('rt') or sys.exit('there is no rt on the PATH; README.md says where the Rattle kit comes from')
sys.dont_write_bytecode = True
sys.path.insert(0, os.path.dirname(os.path.realpath(RT)))
import rtlib  # noqa: E402

KIT = rtlib.KIT
# Read once: the crates' libraries, by their folders.
KNOWN, ONE = {}, threading.Lock()

def crate(name):
    with ONE:
        return rtlib.Crate(f'{ROOT}/crates/{name}', ROOT, KNOWN)

def want_libraries(it):
    """Ends the run where a library below the crate is not in out/. That they are of the same text is for the caller to know: rt ci notes it nowhere."""
    lacking = [below.name for below in it.below() if not os.path.isdir(below.rlib)]
    if lacking:
        sys.exit(f'{it.name}: no library {lacking[0]} is built; rt ci leaves those that it proved in a clean clone, and rt lib makes them elsewhere')

def stamp(it, seen={}):
    """A checksum of all that a check of the crate reads: the kit, its own files, and those of the crates below."""
    if it.name not in seen:
        files = [(os.path.relpath(path, it.folder), read(path)) for path in rtlib.files_of(it.folder)]
        parts = [read(f'{KIT}/KIT-ID'), read(f'{KIT}/WHAT'), it.said, files, [stamp(dep) for dep in it.deps]]
        seen[it.name] = hashlib.sha256(repr(parts).encode()).hexdigest()
    return seen[it.name]

def read(path):
    with open(path, encoding='utf-8', errors='replace') as file:
        return file.read()

def changed(folder, edit):
    """The texts of the files that an edit's lines 'file:', 'old:' and 'new:' change, by their paths in the crate; None where one does not stand there once."""
    path, old, texts = None, None, {}
    for line in edit.split('\n'):
        if line.startswith('file: '):
            path = line[6:].strip()
        elif line.startswith('old: '):
            old = line[5:]
        elif line.startswith('new:') and path and old:
            text = texts[path] if path in texts else read(f'{folder}/{path}')
            if text.count(old) != 1:
                return None
            texts[path] = text.replace(old, re.sub(r'\A ', '', line[4:]))
    return texts

def checked(it, texts, *flags):
    """The status of a check of the crate with these texts in place of its own, from nothing, and what it says."""
    with tempfile.TemporaryDirectory() as room:
        for part in rtlib.PARTS:
            if os.path.isdir(f'{it.folder}/{part}'):
                shutil.copytree(f'{it.folder}/{part}', f'{room}/{part}')
        for path, text in texts.items():
            with open(f'{room}/{path}', 'w', encoding='utf-8') as file:
                file.write(text)
        words = [rtlib.RATTLE, 'check', *it.words(['--jobs', '1'], keeps=False), *flags]
        ran = subprocess.run(words, cwd=room, stdin=subprocess.DEVNULL, stdout=subprocess.PIPE, stderr=subprocess.STDOUT, errors='replace')
        return ran.returncode, ran.stdout
