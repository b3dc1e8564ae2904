// Converts texts to bytes of UTF-8 and back. Patterns read bytes as a string with one character for each byte.
"use strict";

const encode = (text) => new TextEncoder().encode(text);
const decode = (bytes) => new TextDecoder().decode(bytes);

const byteLetters = (text) => Array.from(encode(text), (it) => String.fromCharCode(it)).join("");
const textOfLetters = (letters) => decode(Uint8Array.from(letters, (it) => it.charCodeAt(0)));

if (typeof module === "object") module.exports = { decode, encode, byteLetters, textOfLetters };
