// While a tune plays: the keys for media of a keyboard, a headset or a locked telephone act on it, and the screen stays on.

/** What the browser may have of this: some have neither.
 * @typedef {{ mediaSession?: MediaSession, wakeLock?: WakeLock }} Machine
 * @typedef {{ playOrStop: () => void, step: (isForward: boolean) => void }} Acts */

export class MediaKeys {
  /** `title` names the tune and the book.
   * @param {Acts} acts
   * @param {() => { title: string, album: string }} title
   * @param {Machine} machine */
  constructor(acts, title, machine = navigator) {
    this.title = title;
    this.machine = machine;
    this.isPlaying = false;
    /** @type {WakeLockSentinel | null} */
    this.lock = null;
    /** @type {[MediaSessionAction, () => void][]} */
    const keys = [
      ["play", () => !this.isPlaying && acts.playOrStop()], ["pause", () => this.isPlaying && acts.playOrStop()], ["stop", () => this.isPlaying && acts.playOrStop()],
      ["nexttrack", () => acts.step(true)], ["previoustrack", () => acts.step(false)],
    ];
    for (const [name, act] of keys) this.hear(name, act);
    document.addEventListener("visibilitychange", () => !document.hidden && this.isPlaying && void this.stayAwake());
  }

  /** A browser may not know a key.
   * @type {(name: MediaSessionAction, act: () => void) => void} */
  hear(name, act) {
    try {
      this.machine.mediaSession?.setActionHandler(name, act);
    } catch {
      // then the key does nothing
    }
  }

  /** The tune plays, or does so no more.
   * @type {(isPlaying: boolean) => void} */
  show(isPlaying) {
    const { mediaSession } = this.machine;
    this.isPlaying = isPlaying;
    if (mediaSession) {
      mediaSession.playbackState = isPlaying ? "playing" : "paused";
      if (isPlaying) mediaSession.metadata = new MediaMetadata({ ...this.title(), artist: "" });
    }
    if (isPlaying) void this.stayAwake();
    else void this.sleep();
  }

  /** The screen stays on while the tune plays. The browser ends that when the tab is hidden. */
  async stayAwake() {
    const lock = await this.machine.wakeLock?.request("screen").catch(() => null);
    if (!lock) return;
    if (!this.isPlaying || (this.lock && !this.lock.released)) return lock.release();
    this.lock = lock;
  }

  async sleep() {
    const { lock } = this;
    this.lock = null;
    await lock?.release().catch(() => {});
  }
}
