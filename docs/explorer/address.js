// What stands behind the # of the page's address: a script of the repository by its name, or a whole script, and how
// far it is played. rollback_of_five:42 is that script with line 42 as its last event; nodes.5,s.4.0,i.4:3 has its
// lines in itself, a point for each blank. A text that is not of that form is text=, as addresses write any text.

const PLAIN = /^(?:[a-z]+(?: [0-9]+)+\n)+$/;
const POINTED = /^[a-z]+(\.[0-9]+)+(,[a-z]+(\.[0-9]+)+)*$/; // a plain text as it stands in an address

function addressOf({ preset, text, line }) {
  const name = preset !== "" ? preset
    : PLAIN.test(text) ? text.slice(0, -1).replaceAll(" ", ".").replaceAll("\n", ",")
    : "text=" + encodeURIComponent(text);
  return "#" + name + (line === null ? "" : `:${line}`);
}

// { preset, text, line } of an address, line being null for all of it; null where it names nothing.
function momentOf(hash, scripts) {
  const [, name, line] = /^#?(.*?)(?::([1-9][0-9]{0,3}))?$/s.exec(hash);
  const found = { preset: "", line: line === undefined ? null : Number(line) };
  if (Object.hasOwn(scripts, name)) return { ...found, preset: name, text: scripts[name] };
  if (POINTED.test(name)) return { ...found, text: name.replaceAll(".", " ").replaceAll(",", "\n") + "\n" };
  if (!name.startsWith("text=")) return null;
  try {
    return { ...found, text: decodeURIComponent(name.slice(5)) };
  } catch {
    return null;
  }
}
