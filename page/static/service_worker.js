// Keeps the files of the page, so that it opens without a network. All files are of one version: a newer page has another list.
// scripts/package/static_page writes the list.

const VERSION = "VERSION OF THE PAGE";
/** @type {Record<string, string>} */
const FILES = {}; // by their paths: the digests of the files

const worker = /** @type {any} */ (self);
const scope = new URL("./", worker.location.href);
const CACHE = `abc2midi_live ${scope.pathname} ${VERSION}`;

/** Gets all files from the server. One of another version fails, and the page stays as it was. */
async function install() {
  const cache = await caches.open(CACHE);
  const requests = Object.entries(FILES).map(([path, integrity]) => new Request(new URL(path, scope), { cache: "reload", integrity }));
  await cache.addAll(requests);
}

/** Removes the files of older pages. */
async function activate() {
  const names = await caches.keys();
  const older = names.filter((other) => other.startsWith(`abc2midi_live ${scope.pathname} `) && other !== CACHE);
  await Promise.all(older.map((other) => caches.delete(other)));
  await worker.clients.claim();
}

/** Answers with a kept file; all else comes from the server.
 * @type {(request: Request) => Promise<Response>} */
async function answer(request) {
  const { pathname, origin } = new URL(request.url), isPage = pathname === scope.pathname || pathname === `${scope.pathname}index.html`;
  const kept = origin === scope.origin ? await caches.match(isPage ? scope.href : request, { cacheName: CACHE, ignoreSearch: true }) : undefined;
  return kept ?? fetch(request);
}

worker.addEventListener("install", (/** @type {any} */ event) => event.waitUntil(install()));
worker.addEventListener("activate", (/** @type {any} */ event) => event.waitUntil(activate()));
worker.addEventListener("fetch", (/** @type {any} */ event) => {
  if (event.request.method === "GET") event.respondWith(answer(event.request));
});
worker.addEventListener("message", (/** @type {any} */ { data }) => {
  if (data === "take over") worker.skipWaiting();
});
