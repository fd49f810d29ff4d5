// The page: an application that owns the text, the link to the host and the parts of the window, and connects them.

import { find, hide, show } from "../base/elements.js";
import { onceAFrame } from "../base/once_a_frame.js";
import { keysOf, nameKeys } from "../base/shortcut_names.js";
import { Tip } from "../base/tooltip.js";
import { Files, SaveAs } from "../dialogs/book_saving.js";
import { BookTunesDialog } from "../dialogs/book_tunes_dialog.js";
import { Comparing } from "../dialogs/compared_texts.js";
import { DifferencesDialog } from "../dialogs/differences_dialog.js";
import { HintKinds } from "../dialogs/hint_kinds.js";
import { InstrumentDialog } from "../dialogs/instrument_dialog.js";
import { SetDialog } from "../dialogs/set_dialog.js";
import { ShareDialog } from "../dialogs/share_dialog.js";
import { TidyDialog } from "../dialogs/tidy_dialog.js";
import { TransposeDialog } from "../dialogs/transpose_dialog.js";
import { TuneFiles } from "../dialogs/tune_downloads.js";
import { Brackets } from "../editor/bracket_pairs.js";
import { Completing } from "../editor/completion_list.js";
import { FaultBar } from "../editor/fault_bar.js";
import { mendOf } from "../editor/fault_fixes.js";
import { Remarks } from "../editor/fault_remarks.js";
import { PastedLines } from "../editor/pasted_lines.js";
import { keepPlace, placeKept } from "../editor/caret_place.js";
import { openingLine } from "../editor/opening_line.js";
import { Search } from "../editor/search_bar.js";
import { Signs } from "../editor/sign_palette.js";
import { Sheet } from "../editor/text_sheet.js";
import { Colours } from "../editor/token_colours.js";
import { KeptText } from "../link/draft_recovery.js";
import { Findings } from "../link/findings.js";
import { HintReader } from "../link/hint_reader.js";
import { Book } from "../link/host_book.js";
import { Link } from "../link/host_link.js";
import { Seen } from "../link/tokens_and_plays.js";
import { KeyboardNotes } from "../music/keyboard_notes.js";
import { Music } from "../music/music_panel.js";
import { SetPlayer } from "../music/set_player.js";
import { Transposition } from "../music/transposition.js";
import { NoteDrag } from "../score/dragged_note.js";
import { ScorePdf } from "../score/score_pdf.js";
import { Score, tuneOf } from "../score/score_view.js";
import { SelectedNotes } from "../score/selected_notes.js";
import { Text } from "../text/text.js";
import { UndoStore } from "../text/undo_store.js";
import { CaretTune } from "../tunes/caret_tune.js";
import { Starter } from "../tunes/empty_states.js";
import { TuneFilter } from "../tunes/filter_field.js";
import { AllMidi } from "../tunes/midi_zip_link.js";
import { beginTune } from "../tunes/new_tune.js";
import { Tunes } from "../tunes/tune_list.js";
import { Commands } from "./commands.js";
import { Questions } from "./question_bar.js";
import { ServerNews } from "./server_news.js";
import { StatusBar } from "./status_bar.js";
import { TitleBar } from "./title_bar.js";
import { UndoButtons } from "./undo_buttons.js";
import { ViewMenu } from "./view_menu.js";

const undoKey = keysOf("Ctrl-Z");

export class Application {
  /** @param {import("../link/book_host.js").BookHost} server */
  constructor(server) {
    const text = (this.text = new Text());
    const link = (this.link = new Link(text, server));
    const book = (this.book = new Book());
    const findings = (this.findings = new Findings(text, link, book));
    const sheet = (this.sheet = new Sheet(text, find("sheet")));
    const seen = (this.seen = new Seen(text, link, server));
    const status = (this.status = new StatusBar());
    const say = (/** @type {string} */ words) => status.say(words);
    const questions = (this.questions = new Questions(find("notice"), find("later"), sheet.area));
    this.server = server;
    this.bookId = "";
    this.tunes = new Tunes(find("list"));
    this.filter = new TuneFilter(this.tunes, findings);
    this.staves = new Score(find("score"), (question) => this.draw(question));
    this.search = new Search(sheet, find("search"), say, undoKey);
    this.selectedNotes = new SelectedNotes();
    new NoteDrag(this.staves, sheet, say);
    this.starter = new Starter(sheet, find("starter"));
    this.tip = new Tip(find("tip"));
    this.remarks = new Remarks(find("told"), this.tip, (line, column) => sheet.go(line, column, true));
    this.pasted = new PastedLines();
    this.faultBar = new FaultBar(sheet, findings);
    this.undoStore = new UndoStore(text, link, (version) => server.ask(`changes/${version}`));
    this.caretTune = new CaretTune(sheet, findings);
    this.music = new Music({ server, link, sheet, findings, seen, caretTune: this.caretTune, tip: this.tip, say });
    new Transposition(this.music.player, (semitones) => this.staves.transpose(semitones), server.offers.score);
    this.allMidi = new AllMidi(server, link, book, findings);
    this.hints = new HintReader(server, link, book);
    const dialog = new DifferencesDialog(/** @type {HTMLDialogElement} */ (find("differences")));
    const comparing = (this.comparing = new Comparing({ server, text, book, dialog, say }));
    this.kept = new KeptText(text, link, book, questions, (lines, name) => comparing.withText(lines, name));
    this.news = new ServerNews({ server, link, book, sheet, questions, status, kept: this.kept });
    const asking = { questions, say, doubt: () => this.kept.standingDoubt(), compare: () => comparing.withDisk() };
    this.files = new Files({ text, link, book, undoKey, ...asking });
    this.titleBar = new TitleBar(link, book, this.files, sheet.area);
    this.saveAs = new SaveAs(this.files, /** @type {HTMLDialogElement} */ (find("copy")), sheet);
    const drawing = { music: this.music, staves: this.staves, say, close: () => this.saveAs.dialog.close() };
    this.tuneFiles = new TuneFiles(drawing);
    this.scorePdf = new ScorePdf({ server, link, book, findings, listed: this.tunes, ...drawing });
    this.saveAs.opened = () => this.scorePdf.show();
    this.brackets = new Brackets(sheet, seen); // before the colours, whose letters it would cover
    new Colours(sheet, seen);
    new Signs(sheet, /** @type {HTMLDialogElement} */ (find("signs")));
    const changing = { server, link, findings, sheet, say, undoKey };
    new KeyboardNotes({ ...changing, sound: (keys) => this.music.touch(keys) });
    new TransposeDialog(changing);
    new TidyDialog(changing);
    this.bookTunes = new BookTunesDialog(changing, this.caretTune, () => this.viewMenu.needText());
    this.viewMenu = new ViewMenu(/** @type {HTMLElement} */ (document.querySelector("main")), /** @type {HTMLDialogElement} */ (find("view")), sheet.area);
    this.hintKinds = new HintKinds(findings, /** @type {HTMLDialogElement} */ (find("hints")), (line, column) => this.goTo(line, column), () => this.follow());
    this.undoButtons = new UndoButtons(sheet);
    this.completing = new Completing(sheet, find("completion"), () => findings.tunes);
    new InstrumentDialog({ link, sheet, findings, caretTune: this.caretTune, words: () => this.completing.words, say, undoKey });
    new ShareDialog(this);
    this.sets = new SetDialog({ sheet, findings, caretTune: this.caretTune, player: new SetPlayer(this.music, say, () => this.showTune()) });
    this.showTune = onceAFrame(() => this.show());
  }

  /** Connects the parts, and opens the book. */
  open() {
    nameKeys(document);
    this.connectText();
    this.connectTunes();
    this.connectLink();
    this.connectWindow();
    find("loading").textContent = "The book is being opened. A long one takes some seconds.";
    new Commands(this);
    void this.completing.open();
    this.link.open();
  }

  connectText() {
    const { text, sheet, findings, link, staves, music } = this;
    text.pended = () => void link.send(); // first: the server works while the page draws
    text.edited = (...edit) => this.edited(...edit);
    sheet.faultsOf = (first, last) => findings.remarksIn(first, last);
    sheet.composed = (isComposing) => link.hold(isComposing);
    sheet.placed = (place) => {
      this.status.place(place);
      this.brackets.show(place);
    };
    sheet.pointed = (under, event) => this.remarks.point(under, event);
    this.remarks.mendOf = (fault) => mendOf(fault, text.lines, () => findings.tunes.map(([, number]) => number));
    this.remarks.mended = ({ start, taken, put, columns }) => sheet.replace({ start, taken, put }, columns);
    sheet.moved = () => {
      this.tip.show([]);
      this.showTune();
    };
    staves.hasFaults = ({ first, lines }) => findings.faultsIn(first, first + lines.length) > 0;
    staves.doubted = (isDoubtful) => show(find("doubt"), isDoubtful);
    staves.picked = (line, column) => {
      sheet.go(line, column, true);
      music.transport.touch();
    };
    staves.drawn = () => {
      hide(find("print"), !staves.notes.length, sheet.area);
      this.tuneFiles.show();
      this.selectedNotes.show(staves.notes, sheet.selection());
      this.light(music.follower.sounding);
    };
    music.came = () => this.tuneFiles.show();
    music.follower.lit = (places) => this.light(places);
  }

  connectTunes() {
    const { tunes, findings } = this;
    tunes.faultsOf = ([line]) => findings.faultsIn(line, findings.endOf(findings.tuneAt(line)));
    tunes.chosen = ([line]) => this.goTo(line, 0);
    find("doubt").addEventListener("click", () => this.goToDoubt());
    this.music.transport.ended = () => this.showTune();
    find("new-tune").addEventListener("click", () => {
      if (this.link.state && !beginTune(this.sheet, findings.tunes.map(([, number]) => number))) this.status.say("Each number is used.");
    });
  }

  connectLink() {
    const { link, news, music } = this;
    link.opened = (fresh, isWhole) => this.opened(fresh, isWhole);
    link.changed = (change, isOwn) => this.changed(change, isOwn);
    link.told = () => this.told();
    link.refused = (why) => news.refused(why);
    link.twice = () => news.twice();
    link.doubted = (mine) => this.kept.doubt(mine);
    this.hints.came = () => this.follow();
    news.lost = () => music.bar.link();
    news.returned = () => {
      music.describe();
      this.showTune();
    };
    this.server.renewed = () => {
      history.replaceState(null, "", this.server.address(""));
      music.describe();
    };
  }

  /** What the window and the browser do. */
  connectWindow() {
    const { link, kept, undoStore, staves, sheet } = this;
    document.addEventListener("selectionchange", () => {
      const selection = sheet.selection(), { start, end, direction } = selection;
      staves.caret(direction === "backward" ? start : end);
      this.selectedNotes.show(staves.notes, selection);
    });
    document.addEventListener("visibilitychange", () => {
      if (!document.hidden) link.hurry();
      else if (link.away) kept.keep();
    });
    addEventListener("pagehide", () => {
      kept.keep();
      undoStore.keep();
      if (kept.isOpen) keepPlace(this.bookId, sheet.caret());
    });
    addEventListener("beforeunload", (event) => {
      if (!link.isSafe) event.preventDefault();
    });
  }

  /** Asks the server for the drawing of a tune.
   * @type {(question: object) => Promise<import("../score/score_view.js").Answer>} */
  async draw(question) {
    if (this.link.away) throw new Error(this.link.away);
    return this.server.ask("score", question);
  }

  /** Lights up in the score what sounds.
   * @type {(places: import("../music/text_follower.js").TextPlace[]) => void} */
  light(places) {
    this.staves.mark(places.map(({ line, from }) => ({ line, column: from })), true);
  }

  /** Lines became others.
   * @type {(start: number, stop: number, count: number) => void} */
  edited(start, stop, count) {
    this.search.edited(start, stop, count);
    this.pasted.edited(start, stop, count, this.sheet.inputType);
    this.follow();
    this.link.soon();
    this.kept.soon();
    this.undoStore.soon();
    this.titleBar.showUnsaved();
  }

  /** Goes to a place in the text, which is shown.
   * @type {(line: number, column: number) => void} */
  goTo(line, column) {
    this.viewMenu.needText();
    this.sheet.go(line, column, true);
  }

  /** Says why the score may differ from the sound, and goes to the first fault of its tune. */
  goToDoubt() {
    const { findings, staves } = this, { first, lines } = staves.shown ?? { first: 0, lines: [] };
    const fault = findings.faults.find(([line]) => line >= first && line < first + lines.length);
    if (fault) this.goTo(fault[0], fault[1]);
    this.status.say(find("doubt").title);
  }

  /** Renews what is around the text. */
  follow() {
    this.findings.renew();
    this.showTune();
    this.music.practice.refresh();
  }

  /** Shows what was found, and what belongs to the caret's line and its tune. */
  show() {
    const { text, link, book, findings, caretTune, staves, music } = this;
    if (!link.state) return;
    this.faultBar.show();
    this.sheet.drawFaults();
    this.tunes.show(findings.tunes, caretTune.at);
    this.filter.tally();
    this.allMidi.show();
    this.tuneFiles.show();
    this.remarks.show(this.pasted.remarks(findings, caretTune), text.lines, caretTune.line, (line) => this.pasted.has(line));
    this.starter.look(book.name, link.state.saved);
    this.sets.show();
    this.undoButtons.show();
    music.follow();
    staves.see(tuneOf(text.lines, findings.tunes, music.seen));
    staves.doubt();
  }

  /** A whole book came, or the text became another one.
   * @type {(fresh: import("../link/host_link.js").Book | null, isWhole: boolean) => void} */
  opened(fresh, isWhole) {
    const { book, kept, music, sheet } = this, isFirst = !kept.isOpen;
    if (fresh) {
      book.open(fresh);
      this.bookId = fresh.id;
      kept.open(fresh.id);
      this.remarks.sentences = fresh.sentences;
      this.search.renew();
      if (isFirst) this.undoStore.open(fresh.id);
      if (isFirst) this.hintKinds.open(fresh.id);
    }
    this.seen.forget();
    music.shown.doubt();
    if (isFirst) {
      find("loading").hidden = true;
      music.learn();
      sheet.area.readOnly = false;
      const line = openingLine(location.hash, this.text.lines.length, book.tunes);
      const place = (location.hash ? null : placeKept(this.bookId)) ?? { line, column: 0 };
      sheet.refresh({ start: place, end: place, direction: "forward" });
      this.starter.begin();
    }
    this.follow();
    music.follow(); // asks for the tune together with the lines
    if (fresh && isWhole) kept.offer();
  }

  /** A change of the book came.
   * @type {(change: import("../link/host_link.js").Change, isOwn: boolean) => void} */
  changed(change, isOwn) {
    const { written, removed } = change;
    this.undoStore.soon();
    this.book.change(change);
    this.seen.change(change.edit);
    this.follow();
    this.tunes.light(written, removed);
    this.music.shown.reload(written.concat(removed));
    this.news.reportChange(change, isOwn);
  }

  /** The state of the server is another one. */
  told() {
    const { link, book, news } = this;
    this.seen.look();
    this.titleBar.show();
    this.allMidi.show();
    news.reportAway();
    this.hints.look();
    news.reportTrouble();
    if (link.state) this.starter.look(book.name, link.state.saved);
    if (link.state && book.name) this.files.askAboutTheFile();
    news.askAboutTheServer();
    this.kept.settle();
  }
}
