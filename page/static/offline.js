// Has a service worker keep the files of the page, so that it opens without a network, and says when there is a newer page. If that is
// taken in one tab, all tabs load it: the files of the older one are gone then.

/** `say` shows a sentence, `ask` asks whether to load a newer page; `load` loads the page anew.
 * @typedef {{ say: (words: string) => void, ask: (load: () => void) => void, load: () => void }} Acts
 * @type {(acts: Acts) => Promise<void>} */
export async function keepOffline({ say, ask, load }) {
  const workers = navigator.serviceWorker; // a page that did not come by https has none
  if (!workers) return;
  const hadOne = Boolean(workers.controller);
  let isControlled = hadOne;
  workers.addEventListener("controllerchange", () => {
    if (isControlled) load();
    isControlled = true;
  });
  const registration = await workers.register("service_worker.js", { updateViaCache: "none" }).catch(() => null);
  if (!registration) return;
  const offer = (/** @type {ServiceWorker} */ worker) => ask(() => worker.postMessage("take over"));
  const follow = (/** @type {ServiceWorker | null} */ worker) => worker?.addEventListener("statechange", () => {
    if (worker.state === "installed" && registration.active) offer(worker);
    if (worker.state === "activated" && !hadOne) say("This page opens without a network from now on.");
  });
  if (registration.waiting && registration.active) offer(registration.waiting);
  follow(registration.installing);
  registration.addEventListener("updatefound", () => follow(registration.installing));
}
