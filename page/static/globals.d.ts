// What browsers have and the types of an older TypeScript don't.

interface CanvasPath {
  roundRect(x: number, y: number, w: number, h: number, radii?: number): void;
}

declare class CompressionStream implements GenericTransformStream {
  constructor(format: "deflate" | "deflate-raw" | "gzip");
  readonly readable: ReadableStream;
  readonly writable: WritableStream;
}

// What nearly every module of the page names.

type Ed = import("./core/types.js").Ed;
type Item = import("./core/types.js").Item;
type Plain = import("./core/types.js").Plain;
type Box = import("./core/types.js").Box;
type Place = import("./core/types.js").Place;
