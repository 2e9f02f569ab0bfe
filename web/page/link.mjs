/** The programs of a page in the part of its address behind `#`, which no server is sent. */

const letters = { '+': '-', '/': '_', '=': '' };

async function through(bytes, stream) {
  return new Uint8Array(await new Response(new Blob([bytes]).stream().pipeThrough(stream)).arrayBuffer());
}

/** What a case is, as text for an address. */
export async function linkOf(shared) {
  const bytes = await through(new TextEncoder().encode(JSON.stringify(shared)), new CompressionStream('deflate-raw'));
  let text = '';
  for (let at = 0; at < bytes.length; at += 0x8000) {
    text += String.fromCharCode(...bytes.subarray(at, at + 0x8000));
  }
  return btoa(text).replace(/[+/=]/g, (sign) => letters[sign]);
}

/** The case that such a text is of, or null where it is of none. */
export async function caseOf(link) {
  try {
    const text = atob(link.replace(/-/g, '+').replace(/_/g, '/'));
    const bytes = Uint8Array.from(text, (letter) => letter.charCodeAt(0));
    const shared = JSON.parse(new TextDecoder().decode(await through(bytes, new DecompressionStream('deflate-raw'))));
    const isCase = typeof shared.base === 'string' && Array.isArray(shared.variants) && shared.variants.every((it) => typeof it === 'string');
    return isCase && shared.variants.length >= 2 && shared.variants.length <= 16 ? shared : null;
  } catch {
    return null;
  }
}
