// A link that holds the script in its fragment: packed by deflate, in the letters of base64 that need no escape there.

// A script that is longer is refused anyway.
const MOST_IN_LINK = 1 << 17;

async function packed(text) {
  const stream = new Blob([text]).stream().pipeThrough(new CompressionStream("deflate-raw"));
  const bytes = new Uint8Array(await new Response(stream).arrayBuffer());
  const letters = Array.from(bytes, (byte) => String.fromCharCode(byte)).join("");
  return btoa(letters).replaceAll("+", "-").replaceAll("/", "_").replaceAll("=", "");
}

// As many syncs as a process may make: as many as always where the number is none that the page lets one choose.
function rows_of(number) {
  return number >= 1 && number <= MOST_ROWS ? Math.floor(number) : ROWS;
}

async function fragment_of({ text, rows, is_within }) {
  return `script=${await packed(text)}&rows=${rows}&runs=${is_within ? "within" : "any"}`;
}

// The script that a fragment holds, with how long its runs may be; null where it holds none. It fails where the script
// is damaged. A link that does not say which runs Outcomes searches has a bound where that is not the one of always.
async function held_by(fragment) {
  const held = new URLSearchParams(fragment.replace(/^#/, ""));
  if (!held.has("script")) return null;
  const text = held.get("script").replaceAll("-", "+").replaceAll("_", "/");
  const bytes = await unpacked(text, "deflate-raw", MOST_IN_LINK);
  const rows = rows_of(Number(held.get("rows") ?? ROWS));
  const is_within = held.has("runs") ? held.get("runs") === "within" : rows !== ROWS;
  return { text: new TextDecoder().decode(bytes), rows, is_within };
}
