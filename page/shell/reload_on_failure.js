// Loads the page again if a part of it did not arrive, as on a very busy machine: three times, each after a longer pause. This is no
// module, so that it runs although one is missing.

{
  const KEY = "abc2midi_live loads", PAUSES = [1000, 5000, 20000];
  let isLacking = false;
  addEventListener(
    "error",
    ({ target }) => {
      const isPart = target instanceof HTMLScriptElement || target instanceof HTMLLinkElement;
      if (!isPart || isLacking) return;
      isLacking = true;
      const tries = Number(sessionStorage.getItem(KEY));
      if (tries >= PAUSES.length) return;
      sessionStorage.setItem(KEY, String(tries + 1));
      setTimeout(() => location.reload(), PAUSES[tries]);
    },
    true,
  );
  addEventListener("load", () => isLacking || sessionStorage.removeItem(KEY));
}
