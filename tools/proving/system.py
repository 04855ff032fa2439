"""The crate of a whole system: a kernel and its users, in one theorem of every boot."""

NUMBERS = 'one two three four five six seven eight nine ten eleven twelve thirteen fourteen fifteen sixteen'.split()
# the primitives that touch pages of users
PAGES = {'vm_resize', 'vm_word', 'vm_put', 'vm_copy'}

LIB = """//! A whole system: the kernel {name} and its users. docs/VERIFYING.md says how to go on.
#![tactic(auto)]

ghost use Rattle.{name}.specs.Boots.{{SystemBoots}};
ghost use Rattle.{name}.specs.Property.{{PropertyHolds}};
ghost use Rattle.{name}.specs.Text.{{text}};
ghost use Rattle.{name}.specs.Tree.{{kernel_tree}};
{program_ghosts}ghost use Rattle.kernel_theorems.specs.Text.{{IsTextOf}};

use cvm_model::reasoning::runs_are_lawful;
use kernel_linker::laws::accepted_systems_are_of_their_images;
use kernel_theorems::{{{means}}};
use mips_table::runs::turns_are_counted;
use run_bounds::{{bounds_are_small, lines_taken_are_few, raised_lines_are_few}};

/// A law: whatever lines are raised, each turn of the system ends, no dispatch faults, and what is so between turns holds from the first one on.
pub fn property_holds()
    ensures {{ PropertyHolds }}
{{
    // the laws that the proof uses. FILL IN others here, and hand them on in proofs/property_holds.
    runs_are_lawful();
}}

/// A law: the text is that of the tree.
pub fn text_is_tree()
    ensures {{ IsTextOf {steps} text kernel_tree }}
{{}}
{program_laws}
/// A law: each boot (`boot`, `rom` or `sample`, with no failed call) of an image with this text and these users, under every schedule, stands at such a state,
/// its status is no kernel's fault, and with turns and steps enough it halted.
pub fn system_boots()
    ensures {{ SystemBoots }}
{{
    accepted_systems_are_of_their_images();
    runs_are_lawful();
    turns_are_counted();
    bounds_are_small();
    lines_taken_are_few();
    raised_lines_are_few();
    texts_mean_trees();
    text_is_tree();
{program_calls}}}
"""

PROGRAM_LAW = """
/// A law: the text of user {number} is that of its tree.
pub fn program_{number}_is_tree()
    ensures {{ IsTextAs User {steps} text_{number} program_tree_{number} }}
{{}}
"""

USERS = """-- The words of the users that are written in assembler.
use Rattle.std.specs.Prelude.{{ℕ, List, [], ◌∷◌}}

{definitions}"""

PROPERTY = """-- What is proved of the system {name}: its kernel, with its users.
use Rattle.std.specs.Prelude.{{◌≡◌, ◌≤◌, ℕ, suc, ◌+◌, ℤ, pos, Bool, false, List, [], ◌∷◌, length, Some}}
{program_uses}use Rattle.c0_meaning.specs.Value.{{Value, Values, int, bool, null, group, empty, part}}
use Rattle.c0_meaning.specs.State.{{C0State}}
use Rattle.cvm_model.specs.Kernel.{{Core}}
use Rattle.cvm_model.specs.KernelMeaning.{{kernel_meaning}}
use Rattle.cvm_model.specs.Cvm.{{System, Cvm, cvm, IsCvm}}
use Rattle.cvm_model.specs.Invariant.{{Dispatch, dispatches_of, HasEight, {fit}, IsSafe{has_room}}}
use Rattle.cvm_model.specs.Systems.{{SystemProperty, status_after, lines_taken, UsePages, SystemHolds}}
use Rattle.{name}.specs.Tree.{{kernel_tree}}
{user_uses}
-- the values in its data: FILL IN what is always so of them, as fields of Between, and not here
pub record Data : Type 0 where
{fields}

-- its data between dispatches, and at the start
abbrev pub data_of : Data → C0State
data_of x = record {{ global_values = {globals}; heap_values = group {heap}; heap_words = {used}; frames = [] }}

abbrev pub first : Data
first = record {{ {first} }}

-- WHAT IS SO after k turns: each of them was the first, an untrapped step of a user, a trap, or one in which lines were taken, and no dispatch faulted.
-- FILL IN further fields: where each user's machine is (`c.users`, as in summing), who is next (`c.current`), what the data are by the traps so far, how
-- many steps and traps there are at most, and the status, if it halts.
pub record Between (k : ℕ) (past : List Dispatch) (c : Core) : Type 0 where
  pub values : Data
  pub data_is : c.c0 ≡ data_of values
  pub steps : ℕ
  pub traps : ℕ
  pub turns_are : k ≡ 1 + steps + traps + lines_taken past
  pub length_is : length past ≡ 1 + traps + lines_taken past
  pub safe : IsSafe (status_after past)

-- and no dispatch touches more than so many pages of users
abbrev pub Always : System → SystemProperty
Always y k past c = Between k past c × UsePages y {units} {pages} past

-- a system of this kernel and these users: its stack has the words that the longest chain of calls needs. FILL IN what else a system has to have.
pub record Runs {params}(y : System) : Type 0 where
  pub meaning_is : y.boot.meaning ≡ kernel_meaning kernel_tree y.boot.params
  pub users_are : y.boot.users ≡ {users}
  pub room : {stack} ≤ y.boot.params.stack
{program_fields}{fit_field}
-- THE THEOREM: whatever lines are raised, each turn ends within {units} units of its dispatch, and each state from the first turn on is such
abbrev pub PropertyHolds : Type 0
PropertyHolds = {params_of}(y : System) → Runs {args}y → (lines : ℕ → ℕ) → HasEight lines → (k : ℕ)
    → ((c : Cvm) × (cvm y lines {units} k ≡ Some c)) × ((c : Cvm) → IsCvm y lines (suc k) c → SystemHolds ({fit} y) (Always y) (suc k) (dispatches_of y lines {units} (suc k)) c)
"""

PROOF = """-- The system {name}: each dispatch, and each step of a user, keeps what is so between turns. Each `?` is to be filled in: what the code comes to there.
use Rattle.std.proofs.Common.{{◌≡◌, ℕ, suc, ◌+◌, ◌≤◌, ◌<◌, ◌^◌, List, [], ◌∷◌, ◌++◌, length, false, nat_lt, refl, sym, ap, ◌∙◌, subst, arith}}
use Rattle.std.specs.Prelude.{{◌==◌, if◌then◌else◌, pos}}
use Rattle.std.proofs.lemmas.Bool.{{le-ltb}}
use Rattle.mips_table.specs.declared.cause.Cause.{{Cause}}
use Rattle.mips_table.specs.declared.cause.Cause.TheVariants as causes
use Rattle.mips_table.specs.Machine.{{cause_number}}
use Rattle.mips_table.specs.Flat.{{Flat}}
{program_uses}use Rattle.c0_meaning.proofs.Rules as rules
use Rattle.cvm_model.specs.Kernel.{{Core, KernelMeaning}}
use Rattle.cvm_model.specs.Stands.{{IsUser}}
use Rattle.cvm_model.specs.Cvm.{{System, Running, first_core, status_of}}
use Rattle.cvm_model.specs.Invariant.{{Dispatch, IsTrapOf, with_machine, {fit}, IsSafe, RunsAreLawful}}
use Rattle.cvm_model.specs.Systems.{{status_after, lines_taken, KeepsAll, IsSystemInvariant}}
use Rattle.cvm_model.proofs.SystemsHold.{{systems_hold, status_join, lines_join}}
use Rattle.cvm_model.proofs.KeepsSystem.{{all_user, all_halt}}
use Rattle.kernel_theorems.proofs.OneDispatchMore.{{one_more}}
use Rattle.kernel_theorems.proofs.OneKernel.{{DoesWithin, keeps_within}}
use Rattle.{name}.specs.Tree.{{kernel_tree}}
use Rattle.{name}.specs.Property.{{Data, data_of, first, Between, Always, Runs, PropertyHolds}}

module _ {params}(y : System) (r : Runs {args}y) where
  -- the stack has room for the frame of `dispatch`; each call in it asks for a fact of its own, of the words of all frames then
  has_room : nat_lt y.boot.params.stack {frame} ≡ false
  has_room = le-ltb y.boot.params.stack {frame} (let room = r.room in omega (arith, room))

  many_users : length y.boot.users ≡ {count}
  many_users = ap length r.users_are

  -- BEHIND A DISPATCH: the counting of turns and traps, with the data that it left. FILL IN your fields of `Between` here, as arguments.
  made : (k : ℕ) (past : List Dispatch) (d : Dispatch) (x : Data) (steps traps : ℕ) (c : Core) → suc k ≡ 1 + steps + traps + (lines_taken past + (if d.cause == 1 then 1 else 0))
      → suc (length past) ≡ 1 + traps + (lines_taken past + (if d.cause == 1 then 1 else 0)) → c.c0 ≡ data_of x → IsSafe (status_of d.next) → Between (suc k) (past ++ d ∷ []) c
  made k past d x steps traps c turns long data_is safe =
      let l = lines_join past d in
      let m = one_more past d in
      record {{
        values = x;
        data_is = data_is;
        steps = steps;
        traps = traps;
        turns_are = omega (arith, turns, l);
        length_is = omega (arith, long, l, m);
        safe = subst IsSafe (sym (status_join Running past d)) safe;
      }}

  -- the code of a dispatch, from data that are known
  abbrev Goes : (k cause edata : ℕ) → List Dispatch → Core → Data → Type 0
  Goes k cause edata past at x = DoesWithin y kernel_tree r.meaning_is {units} {pages} Between k cause edata past at (data_of x)

  -- THE START: user 1's turn, as
  -- (omega arith, all_user y Between 0 0 0 [] (first_core y) _ 1 refl (omega arith) (let many = many_users in omega (arith, many)) (made 0 [] _ first 0 0 _ (omega arith) (omega arith) refl tt))
  started : Goes 0 0 0 [] (first_core y) first
  started = rw has_room ?

  -- LINES are taken: their mask is from 1 to 255, and the current user is one of the users. With user 1 as the next one it is
  -- (omega arith, all_user y Between k 1 mask past at _ 1 refl (omega arith) (let many = many_users in omega (arith, many)) (made k past _ VALUES h.steps h.traps _ (omega (arith, turns)) (omega (arith, long)) refl tt))
  lined : (k mask : ℕ) (past : List Dispatch) (at : Core) → 1 ≤ mask → mask < 2 ^ 8 → IsUser at at.current → status_after past ≡ Running → (h : Between k past at) → Goes k 1 mask past at h.values
  lined k mask past at some eight user on h =
      let turns = h.turns_are in
      let long = h.length_is in
      rw has_room ?

  -- A TRAP of the current user of `before`: a catch-all stands for the seven causes; give one its own clause before it, as `trapped k causes.Syscall ..` for a
  -- system call. The turn's trap is one more: `suc h.traps` in `made`. Where the user's program is known, `known_trap` of kernel_theorems/proofs/UserRuns
  -- says which trap it is. It ends with `all_halt y Between k CAUSE edata past at _ refl (made ..)` where nobody is next.
  trapped : (k : ℕ) (cause : Cause) (edata : ℕ) (past : List Dispatch) (before at : Core) → IsTrapOf before cause edata at → IsUser at at.current → status_after past ≡ Running → (h : Between k past before)
      → Goes k (cause_number cause) edata past at h.values
  trapped k causes.Reset edata past before at came user on h = absurd came.is
  trapped k causes.External edata past before at came user on h = absurd came.is
  trapped k other edata past before at came user on h =
      let turns = h.turns_are in
      let long = h.length_is in
      rw has_room ?

  -- A STEP of the current user: one more. FILL IN your fields; `known_step` of kernel_theorems/proofs/UserRuns says what it leaves of a user whose program
  -- is known.
  stepped : (k : ℕ) (past : List Dispatch) (c : Core) (f : Flat) → Between k past c → Between (suc k) past (with_machine c f)
  stepped k past c f h =
      let turns = h.turns_are in
      record {{ values = h.values; data_is = h.data_is; steps = suc h.steps; traps = h.traps; turns_are = omega (arith, turns); length_is = h.length_is; safe = h.safe }}

  pub invariant : IsSystemInvariant y {units} ({fit} y) (Always y)
  invariant = record {{
    start = λ fit. keeps_within y kernel_tree r.meaning_is {units} {pages} Between 0 0 0 [] (first_core y) (data_of first) tt (ap (λ (m : KernelMeaning). m.first) r.meaning_is) started;
    line = λ k mask past at some eight fit user on h. keeps_within y kernel_tree r.meaning_is {units} {pages} Between (suc k) 1 mask past at (data_of h.0.values) h.1 h.0.data_is
        (lined (suc k) mask past at some eight user on h.0);
    trap = λ k cause edata past before at came fit user fits one on h. keeps_within y kernel_tree r.meaning_is {units} {pages} Between (suc k) (cause_number cause) edata past at (data_of h.0.values) h.1
        (ap (λ (c : Core). c.c0) came.left ∙ h.0.data_is) (trapped (suc k) cause edata past before at came one on h.0);
    step = λ k past c f e fit user fits on h. (stepped (suc k) past c f h.0, h.1);
  }}

pub property_holds : RunsAreLawful → PropertyHolds
property_holds laws {args}y r lines eight k =
    systems_hold laws y kernel_tree {units} ({fit} y) (Always y) r.meaning_is ({known}) (invariant {args}y r) lines eight k
"""

BOOTS_SPEC = """-- What each boot of the system {name} prints: of the kernel with this text and these users, under every schedule.
use Rattle.std.specs.Prelude.{{◌≡◌, ◌≢◌, ℕ, suc, ◌+◌, ◌≤◌, List, [], ◌∷◌, length}}
use Rattle.std.specs.Io.KnownBytes.{{append_known}}
use Rattle.schedule_file.specs.Rows.{{Rows}}
use Rattle.mips_table.specs.Device.{{Environment}}
use Rattle.mips_table.specs.Machine.{{State}}
{boot_uses}use Rattle.boot_turns.specs.declared.answers.View.TheVariants.{{Boot}}
use Rattle.cvm_model.specs.Cvm.{{System}}
use Rattle.cvm_model.specs.Invariant.{{{fit}}}
use Rattle.run_bounds.specs.Steps.{{steps_for}}
use Rattle.kernel_linker.specs.Accept.{{ImageSystem}}
use Rattle.run_scripts.specs.declared.exit_status.Status.{{Status}}
use Rattle.run_scripts.specs.declared.exit_status.Status.TheVariants.{{KernelFault, Memory}}
use Rattle.run_scripts.specs.declared.session.Session.{{Session}}
use Rattle.cvm_outside.specs.Outside.{{Outside}}
use Rattle.run_scripts.specs.Boot.{{booted, environment_of, start_state, steps_before, IsHonest}}
use Rattle.run_scripts.specs.CommandEnds.{{Headlines}}
use Rattle.kernel_boots.specs.Systems.{{AsksSystem, SystemShown, HasHalted}}
use Rattle.{name}.specs.Text.{{text as kernel_text}}
{user_uses}use Rattle.{name}.specs.Property.{{Always}}

-- so many turns, and so many dispatches, there are at most under so many `line` rows: FILL IN what your invariant counts, as 65 + lines and 3 + lines. Of a
-- system that doesn't halt, drop these two, the field `halts`, and `ends` of proofs/Boots.
abbrev pub most_turns : ℕ → ℕ
most_turns lines = 1 + lines

abbrev pub most_dispatches : ℕ → ℕ
most_dispatches lines = 1 + lines

-- WHAT A RUN SHOWS: the state where it stands is such; its status is no kernel's fault; and with turns and steps enough it halted, and printed the report of
-- its last state
pub record Shown (x : Environment) (y : System) (s : State) (late raised turns steps : ℕ) (status : Status) (text : List ℕ) : Type 0 where
  pub shown : SystemShown x y s late raised turns steps {units} ({fit} y) (Always y) status text
  pub no_fault : status ≢ KernelFault
  pub halts : most_turns raised ≤ turns → steps_for y (most_turns raised) (most_dispatches raised) {units} {pages} + late ≤ steps → HasHalted x y s turns steps status text shown.stands

-- EACH BOOT of an image with the kernel's text and these users shows this, under every schedule
abbrev pub SystemBoots : Type 0
SystemBoots = {params_of}{premises}(words : List (List ℕ)) (status : Status) (old new : Outside) → Headlines words status old new
    → (session : Session) (s : ImageSystem) (rows : Rows) (before : List (List ℕ)) → (h : IsHonest words session s rows before old new)
    → status ≢ Memory → session.view ≡ Boot → AsksSystem kernel_text ({users}) h.asked
    → (text : List ℕ) × (new.sink.text ≡ append_known old.sink.text text)
    × Shown (environment_of rows old) (booted s rows) (start_state session s rows before) (steps_before session.start (booted s rows)) (length rows.lines) session.turns session.steps status text
"""

BOOTS = """-- Each boot of the system shows what was proved of its run. Each `?` says how long the system runs.
use Rattle.std.proofs.Common.{{◌≡◌, ℕ, suc, ◌+◌, ◌≤◌, ◌<◌, List, [], ◌∷◌, length, refl, sym, arith}}
use Rattle.mips_table.specs.Turns.{{TurnLaws}}
{boot_uses}use Rattle.cvm_model.specs.Cvm.{{System}}
use Rattle.cvm_model.specs.Invariant.{{{fit}, RunsAreLawful}}
use Rattle.run_bounds.specs.Lines.{{LinesTakenAreFew, RaisedLinesAreFew}}
use Rattle.run_bounds.specs.Steps.{{BoundsAreSmall}}
use Rattle.kernel_linker.specs.Sources.{{AcceptedAreOfImages}}
use Rattle.run_scripts.specs.Boot.{{booted, environment_of, start_state, steps_before}}
use Rattle.kernel_theorems.specs.Text.{{Means{means_program}}}
use Rattle.kernel_boots.specs.Systems.{{SystemEndsWithin}}
use Rattle.kernel_boots.proofs.SystemsBoot.{{asks_source, asked_users, systems_boot}}
use Rattle.{name}.specs.Tree.{{kernel_tree}}
use Rattle.{name}.specs.Text.{{text as kernel_text}}
{user_uses}use Rattle.{name}.specs.Property.{{Always, Runs}}
use Rattle.{name}.specs.Boots.{{most_turns, most_dispatches, SystemBoots}}
use Rattle.{name}.proofs.EveryStepKeepsIt.{{invariant}}

-- What is printed, letter by letter: `stopped` of kernel_boots/proofs/SystemsBoot says that the invariant holds of the state that has halted; of what `halts` gives,
-- `text_is` is the report of that state, which computes where its machines are known.

-- HOW LONG IT RUNS: `below` is that a state which is still running, with so many lines taken at most, stands before the last of its turns (k < most_turns
-- lines), and `few` that its dispatches are few (length past ≤ most_dispatches lines). Each follows by `omega` from `turns_are` or `length_is` and your
-- fields that bound steps and traps.
ends : (y : System) (lines : ℕ) → SystemEndsWithin y {units} (Always y) lines (most_turns lines) (most_dispatches lines) {pages}
ends y lines = record {{
  some = omega arith;
  below = λ k past c h on few. let turns = h.0.turns_are in ?;
  few = λ k past c h few. let long = h.0.length_is in ?;
  touch = λ k past c h. h.1;
  safe = λ k past c h. h.0.safe;
}}

pub system_boots : AcceptedAreOfImages → RunsAreLawful → TurnLaws → BoundsAreSmall → LinesTakenAreFew → RaisedLinesAreFew → Means kernel_text kernel_tree → {program_means}SystemBoots
system_boots images laws counts small takes rise means {mean_args}{args}{premise_args}words status old new headlines session s rows before h some view system =
    let asks = asks_source kernel_text ({users}) words old.shelf.file session s rows h.asked system in
    let users : s.users ≡ {users} = asked_users images kernel_text ({users}) words old.shelf.file session s rows h.asked system in
    let (text, printed, shows) = systems_boot images laws counts small takes rise kernel_text (λ s. s.users ≡ {users}) {units} (λ y. {fit} y) (λ y. Always y)
    (λ s rows unit roomy is few.
    let r : Runs {args}(booted s rows) = record {{ meaning_is = means s.unit s.params unit; users_are = is; room = (let stack = roomy.stack in omega (arith, stack)){program_made}{fit_made} }} in
    ({known_booted}, invariant {args}(booted s rows) r))
    words status old new headlines session s rows before h some view asks users in
    let y = booted s rows in (
      text,
      printed,
      record {{
        shown = shows;
        no_fault = shows.no_fault (ends y (length rows.lines)).safe;
        halts = λ enough long. shows.halts (length rows.lines) (most_turns (length rows.lines)) (most_dispatches (length rows.lines)) {pages} (ends y (length rows.lines)) (omega arith) enough long;
      }},
    )
"""

ANSWER_BOOTS = """use Rattle.{name}.proofs.Boots.{{system_boots}}
use Rattle.{name}.proofs.system_boots.Goals as goal

pub returns : goal.returns
returns c = system_boots c.accepted_systems_are_of_their_images.ensures c.runs_are_lawful.ensures c.turns_are_counted.ensures c.bounds_are_small.ensures
    c.lines_taken_are_few.ensures c.raised_lines_are_few.ensures (c.texts_mean_trees.ensures _ _ _ c.text_is_tree.ensures){programs}
"""

PROGRAM_TEXTS = """-- The programs' texts are those of their trees: each field computes.
use Rattle.std.proofs.Common.{{refl, arith}}
use Rattle.c0_tokens.specs.Lexis.{{mark_cut, word_lexeme}}
use Rattle.c0_tokens.specs.Spelling.{{reserved_words, marks}}
use Rattle.c0_tree.specs.declared.primitive.Program.TheVariants.{{User}}
use Rattle.kernel_theorems.specs.Text.{{IsTextAs}}
{uses}
{lemmas}"""

PROGRAM_TEXT = """pub is_text_{number} : IsTextAs User {steps} text_{number} program_tree_{number}
unfolding mark_cut word_lexeme reserved_words marks
is_text_{number} = record {{ short = omega arith; reads = refl; faultless = refl; is = refl }}
"""

DEPENDENCIES = ('cvm_words cvm_text cvm_outside schedule_file mips_table mips_machine layer_map c0_tokens c0_tree c0_parser c0_meaning c0_asm_text c0_types page_model cvm_model '
                'layer_contract real_layer boot_turns boot_run sample_maker boot_image kernel_linker run_scripts run_bounds kernel_theorems worked_rows kernel_boots')
PROGRAM_DEPENDENCIES = ('cvm_words cvm_text cvm_outside schedule_file object_file mips_table mips_machine layer_map masm c0_tokens c0_tree c0_parser c0_meaning c0_asm_text '
                        'c0_types page_model cvm_model run_bounds worked_rows layer_contract boot_rom real_layer c0_runtime c0_asm_body c0_expr_code c0_stmt_code c0_runs c0_unit unit_runs '
                        'user_c0 boot_report boot_turns boot_run system_files sample_maker boot_image kernel_linker run_scripts cvm_shell kernel_theorems kernel_boots')


class User:
    """A user of the system: its number, and either its words or the text and the steps of its program."""

    def __init__(self, number, words=None, steps=None):
        self.number, self.words, self.steps = number, words, steps

    @property
    def is_program(self):
        return self.words is None

    @property
    def term(self):
        return 'image_words unit_%d' % self.number if self.is_program else 'user_%d' % self.number


def fillings(name, users, kernel, shaped, touches):
    """The words that the texts above are filled with."""
    programs = [it for it in users if it.is_program]
    numbers = [it.number for it in programs]
    plain = [it for it in users if not it.is_program]
    word = dict(kernel, name=name, count=len(users), pages=kernel['units'] if touches else 0, fit='Shaped' if shaped else 'HasUsers')
    word['users'] = ' ∷ '.join([it.term for it in users] + ['[]'])
    word['params'] = ''.join('(unit_%d : CUnit) ' % n for n in numbers)
    word['args'] = ''.join('unit_%d ' % n for n in numbers)
    word['params_of'] = '(%s : CUnit) → ' % ' '.join('unit_%d' % n for n in numbers) if numbers else ''
    word['premises'] = ''.join('IsProgram unit_%d → IsUnitAs User text_%d unit_%d → ' % (n, n, n) for n in numbers)
    word['premise_args'] = ''.join('checked_%d unit_is_%d ' % (n, n) for n in numbers)
    word['user_uses'] = 'use Rattle.%s.specs.Users.{%s}\n' % (name, ', '.join(it.term for it in plain)) if plain else ''
    of_programs = 'use Rattle.%s.specs.ProgramTexts.{%s}\n' % (name, ', '.join('text_%d' % n for n in numbers)) if numbers else ''
    of_trees = ''.join('use Rattle.%s.specs.Program%d.{program_tree_%d}\n' % (name, n, n) for n in numbers)
    unit = 'use Rattle.c0_tree.specs.Tree.{CUnit}\n'
    image = 'use Rattle.user_c0.specs.Image.{image_words}\n'
    word['program_uses'] = unit if numbers else ''
    word['boot_uses'] = word['program_uses']
    word['program_fields'] = ''.join('  pub program_%d : IsProgram unit_%d\n  pub means_%d : (answers : List ℤ) (n : ℕ) → prog unit_%d answers n ≡ prog program_tree_%d answers n\n' % (n, n, n, n, n) for n in numbers)
    word['program_made'] = ''.join('; program_%d = checked_%d; means_%d = program_%d.program_is unit_%d unit_is_%d' % (n, n, n, n, n, n) for n in numbers)
    word['program_means'] = ''.join('MeansProgram text_%d program_tree_%d → ' % (n, n) for n in numbers)
    word['mean_args'] = ''.join('program_%d ' % n for n in numbers)
    word['means_program'] = ', MeansProgram' if numbers else ''
    word['means'] = 'program_texts_mean_trees, texts_mean_trees' if numbers else 'texts_mean_trees'
    if not numbers:
        word['means'] = 'texts_mean_trees'
    word['program_ghosts'] = ''.join('ghost use Rattle.%s.specs.ProgramTexts.{text_%d};\nghost use Rattle.%s.specs.Program%d.{program_tree_%d};\n' % (name, n, name, n, n) for n in numbers)
    word['program_laws'] = ''.join(PROGRAM_LAW.format(number=it.number, steps=it.steps) for it in programs)
    word['program_calls'] = ('    program_texts_mean_trees();\n' + ''.join('    program_%d_is_tree();\n' % n for n in numbers)) if numbers else ''
    word['programs'] = ''.join('\n    (c.program_texts_mean_trees.ensures _ _ _ c.program_%d_is_tree.ensures)' % n for n in numbers)
    word['fit_field'] = '  pub fit : HasRoom y\n' if shaped else ''
    word['has_room'] = ', HasRoom' if shaped else ''
    word['fit_made'] = '; fit = record { users = roomy.users; input = few }' if shaped else ''
    word['known'] = 'laws.shaped y kernel_tree r.meaning_is r.fit' if shaped else 'laws.counted y kernel_tree r.meaning_is'
    word['known_booted'] = 'laws.shaped (booted s rows) kernel_tree r.meaning_is r.fit' if shaped else 'laws.counted (booted s rows) kernel_tree r.meaning_is'
    users_of = 'use Rattle.user_c0.specs.Users.{IsProgram}\n' if numbers else ''
    kind = 'use Rattle.c0_tree.specs.declared.primitive.Program.TheVariants.{User}\n' if numbers else ''
    front = 'use Rattle.c0_types.specs.Front.{IsUnitAs}\n' if numbers else ''
    prog = 'use Rattle.c0_meaning.specs.UserProgram.{prog}\n' if numbers else ''
    word['of_property'] = (unit + prog + image + users_of + of_trees) if numbers else ''
    word['of_boots'] = (kind + unit + front + image + users_of + of_programs) if numbers else ''
    word['of_boots_proof'] = (unit + image + of_programs + of_trees) if numbers else ''
    return word


def made(name, users, kernel, shaped, touches):
    """The files of the crate that speak of the whole system."""
    word = fillings(name, users, kernel, shaped, touches)
    numbers = [it.number for it in users if it.is_program]
    ghosts = 'ghost use Rattle.c0_tree.specs.declared.primitive.Program.TheVariants.{User};\n' if numbers else ''
    lib = LIB.format(**word)
    if numbers:
        lib = lib.replace('specs.Text.{IsTextOf};', 'specs.Text.{IsTextAs, IsTextOf};').replace('#![tactic(auto)]\n\n', '#![tactic(auto)]\n\n' + ghosts)
    specs = ['Tree', 'Text'] + (['Users'] if len(numbers) < len(users) else []) + ['Program%d' % n for n in numbers] + (['ProgramTexts'] if numbers else []) + ['Property', 'Boots']
    files = {
        'src/lib.rt': lib,
        'specs/Lib.antt': ''.join('pub mod %s\n' % it for it in specs),
        'proofs/Lib.antt': 'mod EveryStepKeepsIt\nmod Boots\nmod TextIsTree\n' + ('mod ProgramTexts\n' if numbers else ''),
        'specs/Property.antt': PROPERTY.format(**dict(word, program_uses=word['of_property'])),
        'specs/Boots.antt': BOOTS_SPEC.format(**dict(word, boot_uses=word['of_boots'])),
        'proofs/EveryStepKeepsIt.antt': PROOF.format(**word),
        'proofs/Boots.antt': BOOTS.format(**dict(word, boot_uses=word['of_boots_proof'])),
        'proofs/system_boots/Answers.antt': ANSWER_BOOTS.format(**word),
    }
    if len(numbers) < len(users):
        definitions = ''.join('abbrev pub user_%d : List ℕ\nuser_%d = %s\n\n' % (it.number, it.number, ' ∷ '.join(['0x%08x' % w for w in it.words] + ['[]'])) for it in users if not it.is_program)
        files['specs/Users.antt'] = USERS.format(definitions=definitions).rstrip() + '\n'
    if numbers:
        uses = ''.join('use Rattle.%s.specs.Program%d.{program_tree_%d}\n' % (name, n, n) for n in numbers) + 'use Rattle.%s.specs.ProgramTexts.{%s}\n' % (name, ', '.join('text_%d' % n for n in numbers))
        files['proofs/ProgramTexts.antt'] = PROGRAM_TEXTS.format(uses=uses, lemmas='\n'.join(PROGRAM_TEXT.format(number=it.number, steps=it.steps) for it in users if it.is_program))
        for n in numbers:
            files['proofs/program_%d_is_tree/Answers.antt' % n] = ('use Rattle.{0}.proofs.ProgramTexts.{{is_text_{1}}}\nuse Rattle.{0}.proofs.program_{1}_is_tree.Goals as goal\n\n'
                                                                 'pub returns : goal.returns\nreturns c = is_text_{1}\n').format(name, n)
    return files
