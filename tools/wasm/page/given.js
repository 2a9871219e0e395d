
// Arguments and files in an image of tenant-cc, as tenant-args writes them
// (examples/libc/given.py): a segment that the start code of the C library looks for. The image has
// a note with two numbers: the segment's address, or 0, and the size of the file without it.

const PAGE_SIZE = 4096, END_OF_IMAGE = 0x10000000, PROGRAM_HEADER = 56;
const LOAD = 1, NOTE = 4, GNU_STACK = 0x6474e551, FOLDER = 0o040755, PLAIN_FILE = 0o100644;
const GIVEN_SIZE = 32, NODE_SIZE = 56, FIRST_NODE = 3;
const upTo = (size, number) => Math.ceil(number / size) * size;

const viewOf = bytes => new DataView(bytes.buffer, bytes.byteOffset, bytes.byteLength);
const wordAt = (view, at) => Number(view.getBigUint64(at, true));
const setWord = (view, at, value) => view.setBigUint64(at, BigInt(value), true);

// The program headers of an image, each with its place.
function headersOf(bytes) {
  const view = viewOf(bytes), start = wordAt(view, 32);
  const size = view.getUint16(54, true), count = view.getUint16(56, true);
  if (size !== PROGRAM_HEADER || start + size * count > bytes.length) return [];
  return Array.from({length: count}, (_, index) => {
    const at = start + size * index;
    return {at, kind: view.getUint32(at, true), offset: wordAt(view, at + 8),
      address: wordAt(view, at + 16), size: wordAt(view, at + 32),
      memory: wordAt(view, at + 40)};
  });
}

// The place of the two numbers within a segment of notes, or -1.
function noteWithin(bytes, start, end) {
  const view = viewOf(bytes);
  for (let at = start; at + 12 <= end;) {
    const [named, held, kind] = [0, 4, 8].map(it => view.getUint32(at + it, true));
    const body = at + 12 + upTo(4, named);
    const name = decoder.decode(bytes.subarray(at + 12, at + 12 + named));
    if (held === 16 && kind === 1 && name === 'Tombolopan\0') return body + 16 <= end ? body : -1;
    at = body + upTo(4, held);
  }
  return -1;
}

// Where an image has what is changed; null where it was not linked by tenant-cc.
function readImage(bytes) {
  if (!isImage(bytes) || bytes.length < 64) return null;
  const headers = headersOf(bytes), notes = headers.filter(it => it.kind === NOTE);
  const places = notes.map(it => noteWithin(bytes, it.offset,
    Math.min(it.offset + it.size, bytes.length)));
  const note = places.find(place => place >= 0);
  if (note === undefined) return null;
  const given = wordAt(viewOf(bytes), note);
  const spare = headers.find(it => given ? it.kind === LOAD && it.address === given
    : it.kind === GNU_STACK);
  if (!spare) return null;
  const ends = headers.filter(it => it.kind === LOAD && it !== spare).map(
    it => it.address + it.memory);
  const base = given ? wordAt(viewOf(bytes), note + 8) : bytes.length;
  return {note, header: spare.at, end: upTo(PAGE_SIZE, Math.max(0, ...ends)), base};
}

// Bytes that are put together from an address on.
function makeSegment(address) {
  const parts = [];
  let length = 0;
  const put = bytes => {
    parts.push(bytes);
    length += bytes.length;
    return address + length - bytes.length;
  };
  return {put, putText: text => put(encoder.encode(text + '\0')),
    align: () => put(new Uint8Array(upTo(16, length) - length)), parts};
}

// Files and the folders that hold them, by their names.
function nodesOf(files) {
  const folders = new Set();
  for (const {name} of files) {
    for (let at = name.lastIndexOf('/'); at > 0; at = name.lastIndexOf('/', at - 1)) {
      folders.add(name.slice(0, at));
    }
  }
  folders.delete('/tmp');
  const nodes = [...Array.from(folders, name => ({name, mode: FOLDER, bytes: new Uint8Array()})),
    ...files.map(({name, bytes}) => ({name, mode: PLAIN_FILE, bytes}))];
  return nodes.sort((one, other) => one.name < other.name ? -1 : 1);
}

// The struct, the words, the nodes, then what they name.
function segmentOf(words, files, address) {
  const nodes = nodesOf(files), firstWord = address + GIVEN_SIZE;
  const firstNode = firstWord + 8 * (words.length + 2);
  const segment = makeSegment(firstNode + NODE_SIZE * nodes.length);
  const head = new Uint8Array(firstNode - address + NODE_SIZE * nodes.length), view = viewOf(head);
  words.forEach((word, index) => setWord(view, GIVEN_SIZE + 8 * index, segment.putText(word)));
  nodes.forEach(({name, mode, bytes}, index) => {
    const at = firstNode - address + NODE_SIZE * index;
    setWord(view, at, index + 1 < nodes.length ? address + at + NODE_SIZE : 0);
    setWord(view, at + 8, segment.putText(name));
    segment.align();
    setWord(view, at + 16, segment.put(bytes));
    setWord(view, at + 24, bytes.length);
    view.setUint32(at + 40, mode, true);
    view.setUint32(at + 44, FIRST_NODE + 1 + index, true);
  });
  setWord(view, 0, firstWord);
  setWord(view, 8, nodes.length ? firstNode : 0);
  setWord(view, 16, segment.putText('/'));
  return [head, ...segment.parts];
}

// The image with words after `tenant`, and with files by absolute names.
function imageWith(bytes, words, files) {
  const image = readImage(bytes);
  const parts = segmentOf(['tenant', ...words], files, image.end);
  const length = parts.reduce((sum, part) => sum + part.length, 0);
  if (image.end + length > END_OF_IMAGE) throw new RangeError('the files are too large');
  const start = upTo(PAGE_SIZE, image.base), made = new Uint8Array(start + length);
  made.set(bytes.subarray(0, image.base));
  const view = viewOf(made), header = image.header;
  view.setUint32(header, LOAD, true);
  view.setUint32(header + 4, 6, true);
  [start, image.end, image.end, length, length, PAGE_SIZE].forEach((value, index) =>
    setWord(view, header + 8 + 8 * index, value));
  setWord(view, image.note, image.end);
  setWord(view, image.note + 8, image.base);
  let at = start;
  for (const part of parts) {
    made.set(part, at);
    at += part.length;
  }
  return made;
}
