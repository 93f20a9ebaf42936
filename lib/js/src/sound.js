// sound.js: the sound of a recording, which goes along with it.

const APART = 0.3, STILL = 0.01; // seconds that the two may be apart while it plays, and while it doesn't
const SLOWEST = 0.0625, FASTEST = 16; // that browsers play

export class Sound {
  #audio;

  constructor(address) {
    this.#audio = new Audio(address);
    this.#audio.preload = "auto";
  }

  close() {
    this.#audio.pause();
    this.#audio.removeAttribute("src");
  }

  /** Goes to the moment of a playback, and plays if that does. It may end before the recording. */
  follow({ isPlaying, now, speed }) {
    const audio = this.#audio, isHeard = isPlaying && !(now >= audio.duration);
    audio.playbackRate = Math.max(SLOWEST, Math.min(FASTEST, speed));
    if (Math.abs(audio.currentTime - now) > (isPlaying ? APART : STILL)) audio.currentTime = now;
    // A browser may forbid sound before the first click.
    if (isHeard && audio.paused) audio.play().catch(() => {});
    else if (!isHeard && !audio.paused) audio.pause();
  }

  get audio() {
    return this.#audio;
  }
}
