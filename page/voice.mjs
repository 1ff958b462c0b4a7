// Reading aloud, where the browser can. Only a voice that the machine has itself is used: some browsers have voices that send the text to a server.

/** A voice of the machine's own, English if there is one; null if there is none. */
export function ownVoice(voices) {
  const own = voices.filter(({ localService }) => localService);
  return own.find(({ lang }) => /^en\b/i.test(lang)) ?? own[0] ?? null;
}

/** Some browsers look for their voices only when they are first asked. */
export function wake() {
  globalThis.speechSynthesis?.getVoices();
}

/** Reads a text aloud: whether there is a voice for it. What was being read stops. */
export function speak(text) {
  const speech = globalThis.speechSynthesis;
  const voice = speech ? ownVoice(speech.getVoices()) : null;
  if (!voice) return false;
  speech.cancel();
  const said = new SpeechSynthesisUtterance(text);
  said.voice = voice;
  said.lang = voice.lang;
  speech.speak(said);
  return true;
}
