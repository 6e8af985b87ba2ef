/** What the tests take of Node, beside what the commands do. */

declare module "node:test";
declare module "node:assert/strict";
declare module "node:os";

declare module "node:fs" {
  function mkdtempSync(prefix: string): string;
  function openAsBlob(path: string): Promise<Blob>;
  function symlinkSync(target: string, path: string): void;
  function appendFileSync(path: string, octets: Uint8Array): void;
  interface Stats {
    ino: number;
    isDirectory(): boolean;
  }
}

declare module "node:child_process" {
  function execFileSync(program: string, words: string[]): Buffer;
}
