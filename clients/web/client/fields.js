/** The fields of frames, as docs/FORMATS.md has them, and why they end. Times and values are numbers where these are exact, else BigInts. */

export const MOST = 10 ** 18; // the greatest size of a value; exact as a number
export const MOST_SLOTS = 2 ** 35;

/** Why no further picture is drawn: its message says so, as the client in clients/python does. */
export class Stopped extends Error {}

/** The bytes end within a frame. */
export class Cut extends Stopped {}

/** The fields of one frame, each tested as soon as it is read. */
export class Fields {
  constructor(bytes, offset) {
    this.view = new DataView(bytes.buffer, bytes.byteOffset, bytes.byteLength);
    this.at = 0;
    this.offset = offset; // of the frame in the stream
  }

  require(holds, size) {
    if (!holds) {
      throw new Stopped(`the field at byte ${this.offset + this.at - size} breaks its rule`);
    }
  }

  take(size) {
    if (this.view.byteLength - this.at < size) {
      throw new Cut(`the stream ends at byte ${this.offset + this.view.byteLength}`);
    }
    this.at += size;
    return this.at - size;
  }

  tested(number, size, least, greatest) {
    this.require(least <= number && number <= greatest, size);
    return number;
  }

  /** So many bytes. */
  bytes(size) {
    return new Uint8Array(this.view.buffer, this.view.byteOffset + this.take(size), size);
  }

  byte(least, greatest) {
    return this.tested(this.view.getUint8(this.take(1)), 1, least, greatest);
  }

  /** A field of two bytes. */
  short(least, greatest) {
    return this.tested(this.view.getUint16(this.take(2)), 2, least, greatest);
  }

  /** A field of four bytes. */
  long(least, greatest) {
    return this.tested(this.view.getUint32(this.take(4)), 4, least, greatest);
  }

  /** A signed field of eight bytes. */
  signed(least, greatest) {
    const at = this.take(8);
    const high = this.view.getInt32(at);
    const isExact = -(2 ** 21) <= high && high < 2 ** 21;
    return this.tested(isExact ? high * 2 ** 32 + this.view.getUint32(at + 4) : this.view.getBigInt64(at), 8, least, greatest);
  }

  /** A field of eight bytes that has no sign. */
  unsigned(greatest) {
    const at = this.take(8);
    const high = this.view.getUint32(at);
    return this.tested(high < 2 ** 21 ? high * 2 ** 32 + this.view.getUint32(at + 4) : this.view.getBigUint64(at), 8, 0, greatest);
  }
}
