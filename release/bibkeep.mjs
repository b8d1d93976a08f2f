// bibkeep as a WebAssembly module: `run` is for any JavaScript, and `node bibkeep.mjs ARGUMENTS` is the program.

// Linux's numbers of errors, as the module knows them.
const NUMBERS = {
  EPERM: 1, ENOENT: 2, EINTR: 4, EIO: 5, EBADF: 9, EAGAIN: 11, ENOMEM: 12, EACCES: 13, EBUSY: 16, EEXIST: 17, EXDEV: 18,
  ENOTDIR: 20, EISDIR: 21, EINVAL: 22, ENFILE: 23, EMFILE: 24, EFBIG: 27, ENOSPC: 28, EROFS: 30, EMLINK: 31, EPIPE: 32,
  ENAMETOOLONG: 36, ENOTEMPTY: 39, ELOOP: 40,
};

// Linux's flags of `open`, and what Node calls them.
const FLAGS = { O_WRONLY: 0o1, O_RDWR: 0o2, O_CREAT: 0o100, O_EXCL: 0o200, O_TRUNC: 0o1000, O_APPEND: 0o2000, O_NOFOLLOW: 0o400000 };

const PATH_MAX = 4096;
const AT_SYMLINK_NOFOLLOW = 0x100;

// Runs the program once and returns its status. `fs` has the functions of Node's `fs` that are called below, and gives the
// standard streams the numbers 0, 1 and 2.
export function run(module, args, fs) {
  const words = ["bibkeep", ...args].map((arg) => new TextEncoder().encode(arg));
  let errno = 0;
  let memory;

  const bytes = (at, length) => new Uint8Array(memory.buffer, Number(at), Number(length));
  const path = (at) => {
    const all = new Uint8Array(memory.buffer);
    return fs.path(all.slice(Number(at), all.indexOf(0, Number(at))));
  };

  // What a call answers, or else -1 (or `none`) and the error's number.
  const tried = (call, none = -1) => {
    try {
      return call();
    } catch (error) {
      if (!error.code) throw error;
      errno = NUMBERS[error.code] ?? NUMBERS.EIO;
      return none;
    }
  };
  const done = (call) => tried(() => (call(), 0));

  // Linux's struct statx, with the fields that the program reads.
  const stat = (at, it) => {
    bytes(at, 256).fill(0);
    const view = new DataView(memory.buffer, Number(at), 256);
    view.setUint32(0, 0x7ff, true);
    view.setUint32(16, Number(it.nlink), true);
    view.setUint16(28, Number(it.mode), true);
    view.setBigUint64(32, it.ino, true);
    view.setBigUint64(40, it.size, true);
    view.setUint32(136, Number(it.dev >> 32n), true);
    view.setUint32(140, Number(it.dev & 0xffffffffn), true);
  };

  const env = {
    rattle_arg_count: () => BigInt(words.length),
    rattle_arg: (number, at, size) => {
      const word = words[Number(number)];
      if (word === undefined) return -1n;
      if (word.length > Number(size)) return -2n;
      bytes(at, word.length).set(word);
      return BigInt(word.length);
    },
    rattle_errno: () => errno,
    rattle_set_errno: (number) => { errno = number; },
    open: (at, flags, mode) => tried(() => {
      const names = Object.keys(FLAGS).filter((name) => flags & FLAGS[name]);
      // the arguments after the flags are in memory
      const given = flags & FLAGS.O_CREAT ? new DataView(memory.buffer).getUint32(Number(mode), true) : 0;
      return fs.openSync(path(at), names.reduce((all, name) => all | (fs.constants[name] ?? 0), 0), given);
    }),
    read: (file, at, size) => tried(() => BigInt(read(fs, file, bytes(at, size))), -1n),
    write: (file, at, size) => tried(() => BigInt(fs.writeSync(file, bytes(at, size))), -1n),
    close: (file) => done(() => fs.closeSync(file)),
    statx: (file, at, flags, wanted, into) => done(() => {
      const it = path(at);
      const options = { bigint: true };
      stat(into, it.length === 0 ? fs.fstatSync(file, options) : flags & AT_SYMLINK_NOFOLLOW ? fs.lstatSync(it, options) : fs.statSync(it, options));
    }),
    realpath: (at, into) => tried(() => {
      const found = fs.realpathSync.native(path(at), { encoding: "buffer" });
      if (found.length >= PATH_MAX) throw Object.assign(new Error(), { code: "ENAMETOOLONG" });
      bytes(into, found.length + 1).set([...found, 0]);
      return into;
    }, 0n),
    fchmod: (file, mode) => done(() => fs.fchmodSync(file, mode)),
    fsync: (file) => done(() => fs.fsyncSync(file)),
    fdatasync: (file) => done(() => fs.fdatasyncSync(file)),
    ftruncate: (file, size) => done(() => fs.ftruncateSync(file, Number(size))),
    rename: (from, to) => done(() => fs.renameSync(path(from), path(to))),
    unlink: (at) => done(() => fs.unlinkSync(path(at))),
    // Node has no locks, so two runs on one file at once are not kept apart
    flock: () => 0,
    // a page has no terminal
    isatty: (file) => (fs.isatty?.(file) ? 1 : 0),
  };

  const { exports } = new WebAssembly.Instance(module, { env });
  memory = exports.memory;
  return exports.run();
}

// Reads what is there. Node answers with an error where it would have to wait, and on Windows at the end of a pipe.
function read(fs, file, into) {
  for (;;) {
    try {
      return fs.readSync(file, into);
    } catch (error) {
      if (error.code === "EOF") return 0;
      if (error.code !== "EAGAIN") throw error;
      Atomics.wait(new Int32Array(new SharedArrayBuffer(4)), 0, 0, 5);
    }
  }
}

async function main() {
  const fs = await import("node:fs");
  const { isatty } = await import("node:tty");
  const { pathToFileURL } = await import("node:url");
  if (import.meta.url !== pathToFileURL(fs.realpathSync(process.argv[1])).href) return;
  const module = new WebAssembly.Module(fs.readFileSync(new URL("bibkeep.wasm", import.meta.url)));
  process.exitCode = run(module, process.argv.slice(2), { ...fs, isatty, path: (bytes) => Buffer.from(bytes) });
}

if (globalThis.process?.versions?.node && process.argv[1]) await main();
