/** Pixels: each one of a picture on one of its canvas, in the colour of its series or nothing. */

// For each place in a panel the colour of its series as red, green and blue. The page's CSS has the same in --series-1 and so on.
const COLOURS = {
  light: [0x1b4f9c, 0xb23a12, 0x18704a, 0x7a3b96],
  dark: [0x8ab8ff, 0xf5a27a, 0x79d2a6, 0xd3a6f5],
};
const NOTHING = 0; // a pixel through which the paper is seen

export const theme = () => (matchMedia("(prefers-color-scheme: dark)").matches ? "dark" : "light");

/** A colour as the number that an opaque pixel of it is in the memory of an ImageData. */
function pixelOf(colour) {
  const bytes = new Uint8Array([colour >> 16, (colour >> 8) & 255, colour & 255, 255]);
  return new Uint32Array(bytes.buffer)[0];
}

/** The size in device pixels of a length on the screen, as a picture may have it. */
export const pixelsOf = (length) => Math.max(1, Math.min(4096, Math.floor(length * devicePixelRatio)));

let spare = null; // what was painted last, for the next picture of its size

/** Room for the pixels of a picture. Each one is written anew. */
function roomFor({ w, h }) {
  if (spare?.width !== w || spare.height !== h) {
    spare = new ImageData(w, h);
  }
  return spare;
}

/** Puts a picture on a canvas of its own size, in the colour of a place in its panel. */
export function paint(canvas, picture, place) {
  const start = performance.now();
  if (canvas.width !== picture.w || canvas.height !== picture.h) {
    canvas.width = picture.w;
    canvas.height = picture.h;
  }
  canvas.style.width = `${picture.w / devicePixelRatio}px`;
  canvas.style.height = `${picture.h / devicePixelRatio}px`;
  const image = roomFor(picture);
  picture.colour(new Uint32Array(image.data.buffer), pixelOf(COLOURS[theme()][place]), NOTHING);
  canvas.getContext("2d").putImageData(image, 0, 0);
  performance.measure("chart: canvas", { start });
}

/** Takes everything from a canvas. */
export function clear(canvas) {
  canvas.width = canvas.height = 1;
}
