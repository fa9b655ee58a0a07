// What Debian's node-typescript does not know of a browser.
declare const OffscreenCanvas: any;
declare const DecompressionStream: any;
interface Window { hdminet: any; }
