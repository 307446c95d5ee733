// In the page and in its workers: what tools/browser.py has packed. Each sign has seven bits: one that a page can't
// have, or that could end a script, stands higher by a multiple of 128.
function octetsOf(signs) {
    const octets = new Uint8Array((signs.length * 7) >> 3);
    let held = 0, bits = 0, count = 0;
    for (let at = 0; at < signs.length; at += 1) {
        held = ((held << 7) | (signs.charCodeAt(at) & 127)) & 0x7fff;
        bits += 7;
        if (bits >= 8) {
            bits -= 8;
            octets[count] = held >> bits;
            count += 1;
        }
    }
    return octets;
}
function unpacked(signs, type) {
    const stream = new Blob([octetsOf(signs)]).stream().pipeThrough(new DecompressionStream("gzip"));
    return new Response(stream, { headers: { "Content-Type": type } });
}
