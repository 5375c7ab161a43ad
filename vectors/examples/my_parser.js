// A parser that knows only text and controls, for run.js.
const hex = (byte, digits) => byte.toString(16).padStart(digits, "0");

module.exports = (chunks) =>
  [...Buffer.concat(chunks)].map((byte) =>
    byte < 0x20 ? `execute ${hex(byte, 2)}` : `print ${hex(byte, 4)}`,
  );
