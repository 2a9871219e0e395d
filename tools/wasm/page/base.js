'use strict';
// What all parts of the page use: elements, texts, and the archives of its data.

const find = name => document.getElementById(name);
const encoder = new TextEncoder(), decoder = new TextDecoder();

// A text with the code of each character that is not printable ASCII, but for line feeds and tabs.
function shown(text) {
  const parts = Array.from(String(text), letter => {
    const code = letter.codePointAt(0);
    const isPlain = (code >= 32 && code < 127) || code === 10 || code === 9;
    return isPlain ? letter : '\\u{' + code.toString(16) + '}';
  });
  return parts.join('');
}

// A text to be read, as an output or a source: letters of all languages stay, and what changes the
// order or the look of others is shown by its code. The style keeps the order of letters.
function readable(text) {
  return text.replace(/[^\p{L}\p{N}\p{P}\p{S}\p{M} \n\t]/gu, letter =>
    '\\u{' + letter.codePointAt(0).toString(16) + '}');
}

// An element with a text in another one. A text is never read as HTML.
function put(parent, name, text, kind) {
  const made = document.createElement(name);
  if (text !== undefined) made.textContent = shown(text);
  if (kind) made.className = kind;
  parent.appendChild(made);
  return made;
}

function putButton(parent, text, kind, action) {
  const made = put(parent, 'button', text, kind);
  made.type = 'button';
  made.onclick = action;
  return made;
}

// Bytes as text of 64 letters, and back; as in URLs, without `=` at the end.
function toLetters(bytes) {
  let text = '';
  for (let at = 0; at < bytes.length; at += 0x8000) {
    text += String.fromCharCode(...bytes.subarray(at, at + 0x8000));
  }
  return btoa(text).replace(/\+/g, '-').replace(/\//g, '_').replace(/=+$/, '');
}
function fromLetters(text) {
  if (Uint8Array.fromBase64) return Uint8Array.fromBase64(text.trim(), {alphabet: 'base64url'});
  const plain = atob(text.trim().replace(/-/g, '+').replace(/_/g, '/'));
  const bytes = new Uint8Array(plain.length);
  for (let at = 0; at < plain.length; at++) bytes[at] = plain.charCodeAt(at);
  return bytes;
}

async function through(bytes, stream) {
  const piped = new Blob([bytes]).stream().pipeThrough(stream);
  return new Uint8Array(await new Response(piped).arrayBuffer());
}
const packed = bytes => through(bytes, new CompressionStream('gzip'));
const unpacked = bytes => through(bytes, new DecompressionStream('gzip'));

// An archive: the length of a head in four bytes, the head in JSON, and its parts.
function joinArchive(head, parts) {
  const sizes = parts.map(([name, bytes]) => [name, bytes.length]);
  const text = encoder.encode(JSON.stringify({...head, parts: sizes}));
  const made = new Uint8Array(parts.reduce((sum, it) => sum + it[1].length, 4 + text.length));
  new DataView(made.buffer).setUint32(0, text.length, true);
  made.set(text, 4);
  let at = 4 + text.length;
  for (const [, bytes] of parts) {
    made.set(bytes, at);
    at += bytes.length;
  }
  return made;
}
function splitArchive(bytes) {
  const length = new DataView(bytes.buffer, bytes.byteOffset).getUint32(0, true);
  const head = JSON.parse(decoder.decode(bytes.subarray(4, 4 + length)));
  const parts = new Map();
  let at = 4 + length;
  for (const [name, size] of head.parts) {
    parts.set(name, bytes.slice(at, at + size));
    at += size;
  }
  if (at !== bytes.length) throw new Error('bytes are missing');
  return {head, parts};
}

// The first digits of a SHA-256; empty where the browser has none for this page.
async function sumOf(bytes) {
  if (!crypto.subtle) return '';
  const digest = new Uint8Array(await crypto.subtle.digest('SHA-256', bytes));
  return Array.from(digest.subarray(0, 8), it => it.toString(16).padStart(2, '0')).join('');
}

// A tab list: a click or an arrow chooses a tab, and shows its panel.
function makeTabs(list, choose) {
  const tabs = () => Array.from(list.querySelectorAll('[role=tab]:not([hidden])'));
  const select = tab => {
    for (const it of tabs()) {
      it.setAttribute('aria-selected', String(it === tab));
      it.tabIndex = it === tab ? 0 : -1;
    }
    choose(tab);
  };
  list.addEventListener('click', event => {
    const tab = event.target.closest('[role=tab]');
    if (tab) select(tab);
  });
  list.addEventListener('keydown', event => {
    const moves = {ArrowLeft: -1, ArrowRight: 1}, all = tabs();
    if (!moves[event.key]) return;
    const at = all.indexOf(document.activeElement) + moves[event.key];
    const next = all[(at + all.length) % all.length];
    next.focus();
    select(next);
    event.preventDefault();
  });
  return select;
}
