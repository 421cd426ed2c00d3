// What browsers have and these definitions of their library haven't yet.
declare class CompressionStream implements GenericTransformStream {
    constructor(format: "gzip" | "deflate-raw");
    readonly readable: ReadableStream;
    readonly writable: WritableStream;
}
declare class DecompressionStream extends CompressionStream {}
