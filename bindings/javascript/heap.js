// The heap that the module's code takes memory from, in the module's own memory.
//
// Blocks lie one after another, each at a multiple of 16. The last of them is given back, and grows, where it lies; one
// before it is given back with those after it, or by `clear`, which gives up all blocks. That is done before each call,
// since a call keeps no memory.

const ALIGNMENT = 16;
const PAGE = 65536;
const MOST = 2 ** 32 - PAGE;

const aligned = (address) => Math.ceil(address / ALIGNMENT) * ALIGNMENT;

export class Heap {
    // What the module imports under the name `heap`. Numbers are BigInts, since its code has 64 bits. An answer is two
    // numbers that are written at `to`: 1 and the block, or 0 and an address that nothing is read from.
    imports = {
        rattle_alloc: (to, size, alignment) => this.answer(to, this.take(Number(size || alignment))),
        rattle_realloc: (to, block, kept, size, alignment) =>
            this.answer(to, this.moved(Number(block), Number(kept), Number(size || alignment))),
        rattle_dealloc: (block) => this.give(Number(block)),
    };

    // The memory is the heap's from the address `base` on.
    open(memory, base) {
        this.memory = memory;
        this.base = aligned(base);
        this.look();
        this.clear();
    }

    clear() {
        this.end = this.base;
        this.blocks = [];
        this.given = new Set();
    }

    // A new block of so many bytes, or 0 where memory is refused.
    take(size) {
        const block = this.end;
        if (!this.reaches(block + size)) return 0;
        this.end = aligned(block + size);
        this.blocks.push(block);
        return block;
    }

    give(block) {
        const { blocks, given } = this;
        given.add(block);
        while (blocks.length > 0 && given.delete(blocks[blocks.length - 1])) this.end = blocks.pop();
    }

    // A block that begins with the bytes that are kept of an old one, or 0.
    moved(block, kept, size) {
        if (block === this.blocks[this.blocks.length - 1]) {
            if (!this.reaches(block + size)) return 0;
            this.end = aligned(block + size);
            return block;
        }
        const larger = this.take(size);
        if (!larger) return 0;
        this.bytes.copyWithin(larger, block, block + Math.min(kept, size));
        this.give(block);
        return larger;
    }

    // Whether the memory reaches to this address, where need be by growing: by an eighth more than is asked for.
    reaches(end) {
        const have = this.bytes.length;
        if (end <= have) return true;
        if (end > MOST) return false;
        try {
            this.memory.grow(Math.ceil((Math.min(end + end / 8, MOST) - have) / PAGE));
        } catch {
            return false;
        }
        this.look();
        return true;
    }

    // A memory that has grown has another buffer.
    look() {
        this.bytes = new Uint8Array(this.memory.buffer);
        this.view = new DataView(this.memory.buffer);
    }

    answer(to, block) {
        this.view.setBigUint64(Number(to), block ? 1n : 0n, true);
        this.view.setBigUint64(Number(to) + 8, BigInt(block || this.base), true);
    }
}
