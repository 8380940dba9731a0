// Asks a JavaScript engine, in sloppy mode.

// the 16-bit units of a value, four hex digits each
export const units = (value) => Array.from({ length: value.length }, (_, i) => value.charCodeAt(i).toString(16).toUpperCase().padStart(4, '0'));

// the value of a source text, or nothing if it is a syntax error; a template behind `tag` is the list of its cooked parts
export function value(source) {
  try {
    return { is: new Function('tag', 'return ' + source)((parts) => [...parts]) };
  } catch (e) {
    if (!(e instanceof SyntaxError)) throw e;
  }
}
