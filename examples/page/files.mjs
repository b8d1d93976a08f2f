// Files in memory, with the functions of Node's `fs` that release/bibkeep.mjs calls. What the program prints is kept.

const S_IFREG = 0o100000;
const O_CREAT = 1, O_EXCL = 2, O_TRUNC = 4;

function fail(code) {
  throw Object.assign(new Error(code), { code });
}

export class Files {
  constructor() {
    this.named = new Map();
    this.open = new Map();
    this.printed = ["", "", ""];
    this.constants = { O_CREAT, O_EXCL, O_TRUNC };
    this.realpathSync = { native: (path) => new TextEncoder().encode(this.named.has(path) ? path : fail("ENOENT")) };
  }

  path(bytes) {
    return new TextDecoder().decode(bytes);
  }

  openSync(path, flags) {
    let file = this.named.get(path);
    if (file && flags & O_EXCL) fail("EEXIST");
    if (!file && !(flags & O_CREAT)) fail("ENOENT");
    if (!file) {
      file = { bytes: new Uint8Array(), number: BigInt(this.named.size + 1) };
      this.named.set(path, file);
    }
    if (flags & O_TRUNC) file.bytes = new Uint8Array();
    const number = Math.max(2, ...this.open.keys()) + 1;
    this.open.set(number, { file, at: 0 });
    return number;
  }

  opened(number) {
    return this.open.get(number) ?? fail("EBADF");
  }

  closeSync(number) {
    this.open.delete(number);
  }

  readSync(number, into) {
    if (number === 0) return 0;
    const it = this.opened(number);
    const read = it.file.bytes.subarray(it.at, it.at + into.length);
    into.set(read);
    it.at += read.length;
    return read.length;
  }

  writeSync(number, bytes) {
    if (number <= 2) {
      this.printed[number] += new TextDecoder().decode(bytes);
    } else {
      const it = this.opened(number);
      const longer = new Uint8Array(Math.max(it.file.bytes.length, it.at + bytes.length));
      longer.set(it.file.bytes);
      longer.set(bytes, it.at);
      it.file.bytes = longer;
      it.at += bytes.length;
    }
    return bytes.length;
  }

  statSync(path) {
    return this.stat(this.named.get(path) ?? fail("ENOENT"));
  }

  lstatSync(path) {
    return this.statSync(path);
  }

  fstatSync(number) {
    return this.stat(this.opened(number).file);
  }

  stat(file) {
    return { dev: 1n, ino: file.number, nlink: 1n, mode: BigInt(S_IFREG | 0o644), size: BigInt(file.bytes.length) };
  }

  renameSync(from, to) {
    this.named.set(to, this.named.get(from) ?? fail("ENOENT"));
    this.named.delete(from);
  }

  unlinkSync(path) {
    if (!this.named.delete(path)) fail("ENOENT");
  }

  ftruncateSync(number, size) {
    const { file } = this.opened(number);
    file.bytes = file.bytes.slice(0, size);
  }

  fchmodSync() {}

  fsyncSync() {}

  fdatasyncSync() {}
}
