// A file of PDF 1.7: numbered objects, and a table of where each begins.

/** @typedef {string | Uint8Array} Piece text of Latin letters, or bytes */

/** @param {string} text each letter below 256 */
const bytesOf = (text) => Uint8Array.from(text, (letter) => letter.charCodeAt(0));

/**
 * A text as a string object: in UTF-16 with its mark, so that any letter goes.
 * @param {string} text
 */
export function textObject(text) {
  const units = Array.from({ length: text.length }, (_, at) => text.charCodeAt(at).toString(16).padStart(4, "0"));
  return `<feff${units.join("")}>`;
}

/**
 * A number as PDF has it: without an exponent.
 * @param {number} value
 */
export const numberText = (value) => String(Math.round(value * 1000) / 1000);

/**
 * Bytes as zlib packs them.
 * @param {Uint8Array} bytes
 * @returns {Promise<Uint8Array>}
 */
export async function packed(bytes) {
  const stream = new Blob([bytes]).stream().pipeThrough(new CompressionStream("deflate"));
  return new Uint8Array(await new Response(stream).arrayBuffer());
}

export class PdfFile {
  constructor() {
    /** @type {(Piece[] | null)[]} the content of each object, or null where it isn't there yet */
    this.objects = [];
  }

  /**
   * Takes a number for an object whose content comes later.
   * @returns {number}
   */
  reserve() {
    this.objects.push(null);
    return this.objects.length;
  }

  /**
   * @param {number} number one that was reserved
   * @param {string} dictionary what stands between << and >>
   */
  fill(number, dictionary) {
    this.objects[number - 1] = [`<< ${dictionary} >>`];
  }

  /**
   * Adds an object.
   * @param {string} dictionary what stands between << and >>
   * @returns {number}
   */
  add(dictionary) {
    const number = this.reserve();
    this.fill(number, dictionary);
    return number;
  }

  /**
   * Adds a stream, packed.
   * @param {string} dictionary further keys
   * @param {Uint8Array} bytes
   * @returns {Promise<number>}
   */
  async stream(dictionary, bytes) {
    const number = this.reserve();
    const content = await packed(bytes);
    const head = `<< ${dictionary} /Filter /FlateDecode /Length ${content.length} >>\nstream\n`;
    this.objects[number - 1] = [head, content, "\nendstream"];
    return number;
  }

  /**
   * The whole file.
   * @param {number} root the number of the catalogue
   * @param {number} info the number of what is known of the file
   * @returns {Uint8Array[]}
   */
  bytes(root, info) {
    /** @type {Uint8Array[]} */
    const out = [];
    let length = 0;
    const put = (/** @type {Piece} */ piece) => {
      const bytes = typeof piece === "string" ? bytesOf(piece) : piece;
      out.push(bytes);
      length += bytes.length;
    };
    put("%PDF-1.7\n%\u00e2\u00e3\u00cf\u00d3\n");
    const places = this.objects.map((content, index) => {
      const at = length;
      for (const piece of [`${index + 1} 0 obj\n`, ...(content ?? ["null"]), "\nendobj\n"]) put(piece);
      return at;
    });
    const table = length;
    put(`xref\n0 ${places.length + 1}\n0000000000 65535 f \n`);
    for (const at of places) put(`${String(at).padStart(10, "0")} 00000 n \n`);
    put(`trailer\n<< /Size ${places.length + 1} /Root ${root} 0 R /Info ${info} 0 R >>\nstartxref\n${table}\n%%EOF\n`);
    return out;
  }
}
