// The session's view: the lines that were sent, saved as a file and opened again.
import { NoSession } from './desk.mjs';
import { element, find, tell } from './dom.mjs';

const FILE = 'nickelgrove-session.txt';
const LONGEST_FILE = 8 << 20; // bytes

export class SessionView {
  #glass;

  constructor(glass) {
    this.#glass = glass;
    find('save').addEventListener('click', () => this.#save());
    find('open-file').addEventListener('change', (event) => this.#open(event.target));
  }

  #save() {
    const { lines, saved } = this.#glass.desk;
    if (lines.length === 0) {
      tell('session-word', 'Nothing was sent yet: there is nothing to save.', true);
      return;
    }
    const url = URL.createObjectURL(new Blob([saved], { type: 'text/plain' }));
    element('a', { href: url, download: FILE }).click();
    setTimeout(() => URL.revokeObjectURL(url), 10000);
    tell('session-word', `${lines.length} lines were saved as ${FILE}.`);
  }

  async #open(input) {
    const [file] = input.files;
    if (!file) return;
    try {
      if (file.size > LONGEST_FILE) throw new NoSession('The file is too long for a session.');
      const desk = this.#glass.desk.reopened(await file.text());
      this.#glass.take(desk);
      for (const id of ['session-word', 'word']) tell(id, `${file.name} is open: ${desk.lines.length} lines were sent.`);
    } catch (error) {
      if (!(error instanceof NoSession)) throw error;
      tell('session-word', `${error.message} The session that was here stays.`, true);
    } finally {
      input.value = ''; // so that the same file can be chosen again
      this.render();
    }
  }

  render() {
    const { lines } = this.#glass.desk;
    find('lines').textContent = lines.length > 0 ? lines.join('\n') : 'none yet';
  }
}
