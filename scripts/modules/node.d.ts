/** What the commands take of Node. */

declare const process: {
  argv: string[];
  env: Record<string, string | undefined>;
  exitCode: number | undefined;
  execPath: string;
  pid: number;
  stdin: import("node:stream").Readable;
  exit(status: number): never;
  memoryUsage(): { arrayBuffers: number; heapUsed: number };
  cpuUsage(before?: { user: number; system: number }): { user: number; system: number };
  on(event: string, listener: () => void): void;
  once(event: string, listener: () => void): void;
  emit(event: string, ...words: any[]): boolean;
  removeAllListeners(event: string): void;
  kill(pid: number, signal: string | number): boolean;
};

interface Buffer extends Uint8Array {
  toString(encoding?: string, from?: number, past?: number): string;
  write(text: string, at: number, encoding: string): number;
  writeUInt16LE(number: number, at: number): number;
  indexOf(octets: string | number, from?: number): number;
  lastIndexOf(octets: string | number, from?: number): number;
  subarray(from?: number, past?: number): Buffer;
  equals(other: Uint8Array): boolean;
}

declare const Buffer: {
  from(octets: string | Uint8Array | ArrayBuffer | number[], encoding?: string): Buffer;
  alloc(size: number): Buffer;
  concat(parts: readonly Uint8Array[]): Buffer;
};

declare class DecompressionStream {
  constructor(form: string);
  readable: ReadableStream<Uint8Array>;
  writable: WritableStream<Uint8Array>;
}

declare module "node:fs" {
  import { Readable } from "node:stream";
  interface Stats {
    mtime: Date;
    mode: number;
    size: number;
    isDirectory(): boolean;
    isFIFO(): boolean;
    isFile(): boolean;
  }
  const constants: { O_NONBLOCK: number; O_WRONLY: number };
  function chmodSync(path: string, mode: number): void;
  function appendFileSync(path: string, text: string): void;
  function mkdirSync(path: string, options?: { recursive: boolean }): void;
  function readdirSync(path: string): string[];
  function statfsSync(path: string): { bavail: number; bsize: number };
  function truncateSync(path: string, size: number): void;
  function closeSync(file: number): void;
  function existsSync(path: string): boolean;
  function fsync(file: number, done: (fault: Error | null) => void): void;
  function fstatSync(file: number): Stats;
  function openSync(path: string, flags: string | number): number;
  function read(
    file: number, room: Uint8Array, at: number, count: number, place: number | null, done: (...found: any[]) => void,
  ): void;
  function readFileSync(path: string | URL | number): Buffer;
  function readFileSync(path: string | URL | number, encoding: string): string;
  function readSync(file: number, room: Uint8Array, at?: number, count?: number, place?: number | null): number;
  function readlinkSync(path: string): string;
  function realpathSync(path: string): string;
  function renameSync(from: string, to: string): void;
  function rmSync(path: string, options: { force?: boolean; recursive?: boolean }): void;
  function statSync(path: string): Stats;
  function writeFileSync(path: string | URL | number, text: string | Uint8Array): void;
  function writeSync(file: number, octets: Uint8Array, at?: number, count?: number): number;
}

declare module "node:child_process" {
  import { Readable } from "node:stream";
  interface Child {
    exitCode: number | null;
    signalCode: string | null;
    pid: number;
    stdin: any;
    stdout: Readable;
    stderr: Readable;
    on(event: string, listener: (...words: any[]) => void): this;
  }
  function spawn(program: string, words: string[], options?: object): Child;
  function spawnSync(program: string, words: string[], options?: object): {
    error?: Error & { code?: string };
    status: number | null;
    signal: string | null;
    stdout: Buffer;
    stderr: Buffer;
  };
}

declare module "node:crypto" {
  interface Hash {
    update(octets: Uint8Array | string): Hash;
    digest(form: string): string;
  }
  function createHash(name: string): Hash;
}

declare module "node:events" {
  function once(source: object, event: string): Promise<any[]>;
}

declare module "node:os" {
  function availableParallelism(): number;
  function tmpdir(): string;
}

declare module "node:path" {
  const delimiter: string;
  function basename(path: string, suffix?: string): string;
  function dirname(path: string): string;
  function join(...parts: string[]): string;
  function relative(from: string, to: string): string;
  function resolve(...parts: string[]): string;
}

declare module "node:timers/promises" {
  function setTimeout(milliseconds: number): Promise<void>;
}

declare module "node:readline" {
  import { Readable } from "node:stream";
  interface Interface extends AsyncIterable<string> {
    on(event: "line", listener: (line: string) => void): void;
  }
  function createInterface(options: { input: Readable }): Interface;
}

declare module "node:stream" {
  class Readable implements AsyncIterable<Buffer> {
    static from(pieces: AsyncIterable<Uint8Array>): Readable;
    static fromWeb(stream: ReadableStream<Uint8Array>): Readable;
    static toWeb(stream: Readable): ReadableStream<Uint8Array>;
    on(event: string, listener: (some: any) => void): this;
    read(): Buffer | null;
    pipe<T>(sink: T): T;
    destroy(fault?: Error): void;
    [Symbol.asyncIterator](): AsyncIterator<Buffer>;
  }
  class Writable {
    on(event: string, listener: (fault: Error) => void): this;
    write(octets: Uint8Array, done: (fault?: Error | null) => void): boolean;
    end(): void;
  }
}

declare module "node:url" {
  function fileURLToPath(url: URL): string;
}

declare module "node:util" {
  function parseArgs(config: object): { values: Record<string, any>; positionals: string[] };
  function promisify(call: Function): (...words: any[]) => Promise<any>;
}

declare module "node:zlib" {
  import { Readable } from "node:stream";
  function createGzip(options?: { level: number }): Readable;
  function gzip(octets: Uint8Array, options: object, done: (...found: any[]) => void): void;
  function gunzipSync(octets: Uint8Array): Buffer;
  function createInflateRaw(): Readable;
}
