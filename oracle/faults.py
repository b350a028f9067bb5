#!/usr/bin/env python3
"""Changes a line of the Rust at a time, and looks whether `differ` detects the fault; and a line of the adapter of
`host` at a time, and looks whether `host` does.

Copies this folder and the crate `timesync` to target/faults, puts the given files there, and for each change below writes the
changed file into the copy, builds it and runs `differ` or `host` at a small size. A change is noticed where the run
ends with status 1 (a difference, or a panic of what was changed). Changes that no sequence of calls can
show are marked as such, with the reason. Status 1 where another one is not noticed.

Usage: faults.py [--only TEXT] [--sequences N]; TIMESYNC_LIB_DIR and GIVEN as in run.sh."""
import os
import pathlib
import shutil
import subprocess
import sys
import time

HERE = pathlib.Path(__file__).resolve().parent
GIVEN = pathlib.Path(os.environ.get("GIVEN", HERE.parent / "docs/src")).resolve()
COPY = HERE / "target/faults/copy"
BUILD = HERE / "target/faults/build"
PROFILE = "faults"
STEPS, SEED, SEQUENCES = "24", "1", "3000"
HOST_ANSWERS = "4000000"
LONGEST_RUN_S = 600
# each file, and its place in the copy
FILES = {
    "time_sync": (GIVEN / "rs-matter-dm/src/clusters/time_sync.rs", "oracle/src/dm/clusters/time_sync.rs"),
    "client": (GIVEN / "rs-matter-dm/src/clusters/time_sync/client.rs", "oracle/src/dm/clusters/time_sync/client.rs"),
    "rtc": (GIVEN / "rs-matter-node-core/src/rtc.rs", "oracle/src/rtc.rs"),
    "fmt": (GIVEN / "rs-matter-dm/src/fmt.rs", "oracle/src/fmt.rs"),
    "adapter": (HERE / "host/src/adapter.rs", "host/src/adapter.rs"),
}

S, C, R, A = "time_sync", "client", "rtc", "adapter"
CHANGES = [
    # file, line, what it becomes, which of the equal lines (from 1), reason where nothing can show it
    # ---- the list store
    (S, ".rfind(|entry| entry.valid_at <= now)", ".find(|entry| entry.valid_at <= now)", 1),
    (S, ".rfind(|entry| entry.valid_at <= now)", ".rfind(|entry| entry.valid_at < now)", 1),
    (S, ".map(|entry| (entry.offset, entry.name.clone()))", ".map(|entry| (entry.offset, None))", 1),
    (S, ".unwrap_or((0, None))", ".unwrap_or((1, None))", 1),
    (S, "entry.valid_starting <= now", "entry.valid_starting < now", 1),
    (S, "&& entry.valid_until.map(|until| now < until).unwrap_or(true)",
     "&& entry.valid_until.map(|until| now <= until).unwrap_or(true)", 1),
    (S, ".any(|entry| entry.valid_until.map(|until| now < until).unwrap_or(true))",
     ".any(|entry| entry.valid_until.map(|until| now < until).unwrap_or(false))", 1),
    (S, ".any(|entry| entry.valid_until.map(|until| now < until).unwrap_or(true))",
     ".all(|entry| entry.valid_until.map(|until| now < until).unwrap_or(true))", 1),
    (S, ".filter(|at| *at > now)", ".filter(|at| *at >= now)", 1),
    (S, ".filter(|at| *at > now)", ".filter(|at| *at >= now)", 2),
    (S, "(Some(a), Some(b)) => Some(a.min(b)),", "(Some(a), Some(b)) => Some(a.max(b)),", 1),
    (S, "[Some(entry.valid_starting), entry.valid_until]", "[Some(entry.valid_starting), None]", 1),
    (S, "if index == DST_OFFSET_MAX {", "if index == DST_OFFSET_MAX - 1 {", 1),
    (S, "if index == DST_OFFSET_MAX {", "if index == DST_OFFSET_MAX + 1 {", 1),
    (S, "if starting <= prev {", "if starting < prev {", 1,
     "an equal start lies before the end of the window before, which is refused with the same number"),
    (S, "if starting < until {", "if starting <= until {", 1),
    (S, "if starting >= until {", "if starting > until {", 1),
    (S, "None => seen_null_until = true,", "None => seen_null_until = false,", 1),
    (S, "if index == TIME_ZONE_MAX {", "if index == TIME_ZONE_MAX + 1 {", 1),
    (S, "return Err(ErrorCode::ResourceExhausted.into());", "return Err(ErrorCode::ConstraintError.into());", 2),
    (S, "if (index == 0) != (valid_at == 0) {", "if (index == 0) && (valid_at != 0) {", 1,
     "a later start of 0 is not above the one before, which is refused with the same number"),
    (S, "if valid_at <= prev {", "if valid_at < prev {", 1),
    (S, "if !(-12 * 3600..=14 * 3600).contains(&offset) {", "if !(-12 * 3600..14 * 3600).contains(&offset) {", 1),
    (S, "if !(-12 * 3600..=14 * 3600).contains(&offset) {", "if !(-12 * 3600 - 1..=14 * 3600).contains(&offset) {", 1),
    (S, "if name.len() > TIME_ZONE_NAME_MAX {", "if name.len() >= TIME_ZONE_NAME_MAX {", 1),
    (S, "if name.len() > TIME_ZONE_NAME_MAX {", "if name.chars().count() > TIME_ZONE_NAME_MAX {", 1,
     "what is longer in bytes than in characters fails with the same number when it is copied"),
    (S, "state.data.dst_offset.clear();", "", 1),
    (S, "state.data.dst_offset.clear();", "", 2),
    (S, "state.generation = state.generation.wrapping_add(1);", "", 1),
    (S, "state.generation = state.generation.wrapping_add(1);", "", 2),
    (S, "state.generation = state.generation.wrapping_add(1);", "", 3),
    (S, "state.generation = state.generation.wrapping_add(1);", "state.generation += 1;", 4),
    (S, "self.note_changed();", "", 1),
    (S, "self.note_changed();", "", 2),
    (S, "self.note_changed();", "", 3),
    (S, "self.changed.notify();", "", 2),
    (S, "store.remove(TIME_ZONE_KEY, buf)?;", "", 1),
    (S, "state.data = loaded;", "state.data = loaded; state.generation += 1;", 1),
    (S, "state.data = TimeZoneStoreData::new();", "state.data.dst_offset.clear();", 1),
    (S, "Ok(TimeZoneDatabaseEnum::None)", "Ok(TimeZoneDatabaseEnum::Partial)", 1),
    (S, "Ok(TIME_ZONE_MAX as u8)", "Ok(TIME_ZONE_MAX as u8 + 1)", 1),
    # ---- the handler
    (S, "current = current.saturating_add(1);", "current = current.saturating_add(2);", 1),
    (S, "store.note_changed();", "", 1),
    (S, "store.store_persist(ctx.kv())?;", "", 2),
    (S, "ctx.notify_own_attr_changed(AttributeId::TimeZone as _);", "", 1),
    (S, "ctx.notify_own_attr_changed(AttributeId::TimeZone as _);\n        ctx.notify_own_attr_changed(AttributeId::DSTOffset as _);",
     "ctx.notify_own_attr_changed(AttributeId::DSTOffset as _);\n        ctx.notify_own_attr_changed(AttributeId::TimeZone as _);", 1),
    (S, "self.matter.notify_trusted_time_source_changed();", "", 1),
    (S, "if entry.valid_at <= utc {", "if entry.valid_at < utc {", 1),
    (S, "let unexpired = entry.valid_until.map(|u| utc < u).unwrap_or(true);",
     "let unexpired = entry.valid_until.map(|u| utc <= u).unwrap_or(true);", 1),
    (S, "if entry.valid_starting <= utc {", "if entry.valid_starting < utc {", 1),
    (S, "if !usable {", "if active.is_none() {", 1),
    (S, "offset_secs.saturating_mul(1_000_000),", "offset_secs.saturating_mul(1_000_001),", 1),
    (S, "active = Some(entry.offset);", "active = active.or(Some(entry.offset));", 1,
     "accepted windows do not overlap, so the first active one is the last"),
    # ---- the timer
    (S, "if last_tz.is_some() {", "if true {", 1),
    (S, "if last_dst_active.is_some() || dst_active {", "if last_dst_active.is_some() {", 1),
    (S, "if !dst_usable && last_dst_usable == Some(true) {", "if !dst_usable {", 1),
    (S, "last_dst_usable = Some(dst_usable);", "last_dst_usable = Some(true);", 1),
    (S, "let delta_us = at.saturating_sub(now).saturating_add(100_000);",
     "let delta_us = at.saturating_sub(now).saturating_add(99_999);", 1),
    (S, "let delta_us = at.saturating_sub(now).saturating_add(100_000);",
     "let delta_us = at.saturating_sub(now).wrapping_add(100_000);", 1),
    # ---- the clock
    (R, "TimeGranularity::Microseconds => TimeGranularity::Milliseconds,",
     "TimeGranularity::Microseconds => TimeGranularity::Microseconds,", 1),
    (R, "_ => TimeGranularity::Minutes,", "_ => TimeGranularity::NoTime,", 1),
    (R, "if changed || self.anchor.is_none() {", "if changed {", 1,
     "a clock that is not set has granularity NoTime, which no setting takes"),
    (R, "if changed || self.anchor.is_none() {", "{", 1),
    (R, "let changed = self.utc_us != utc_us || self.granularity != stepped || self.source != source;",
     "let changed = self.utc_us != utc_us || self.granularity != stepped;", 1),
    (R, "const GRANULARITY_ATTR_ID: AttrId = 0x01;", "const GRANULARITY_ATTR_ID: AttrId = 0x02;", 1),
    (R, "if delta >= DELTA {", "if delta > DELTA {", 1),
    (R, "const DELTA: u64 = 24 * 60 * 60 * 1_000_000;", "const DELTA: u64 = 25 * 60 * 60 * 1_000_000;", 1),
    (R, "self.utc_us_persisted = utc_us;", "", 1),
    (R, "self.utc_us_persisted = stored;", "self.utc_us_persisted = stored.max(floor);", 1),
    (R, "self.utc_us = stored.max(floor);", "self.utc_us = stored;", 1),
    (R, ".unwrap_or(0);", ".unwrap_or(1);", 1),
    (R, "UtcTime::Reliable(self.utc_us.saturating_add(elapsed_us))", "UtcTime::Reliable(self.utc_us.wrapping_add(elapsed_us))", 1),
    (R, "self.reset();", "", 2),
    (R, "result.and(store.remove(TRUSTED_TIME_SOURCE_KEY, buf))", "result", 1),
    (R, "if self.trusted_time_source.is_none() && previous.is_some() {", "if previous.is_some() {", 1),
    (R, "persist.remove(TRUSTED_TIME_SOURCE_KEY)?;", "", 1),
    (R, "if self.trusted_time_source.is_none() && previous.is_some() {", "if self.trusted_time_source.is_none() {", 1,
     "a source that became none was one before"),
    # ---- the client
    (C, "pub const RETRY_MIN: Duration = Duration::from_secs(60);", "pub const RETRY_MIN: Duration = Duration::from_secs(61);", 1),
    (C, "const TIME_EVENTS_INTERVAL: Duration = Duration::from_secs(60 * 60);",
     "const TIME_EVENTS_INTERVAL: Duration = Duration::from_secs(60 * 60 + 1);", 1),
    (C, ".is_none_or(|at| now.duration_since(at) >= TIME_EVENTS_INTERVAL);",
     ".is_none_or(|at| now.duration_since(at) > TIME_EVENTS_INTERVAL);", 1),
    (C, "let first_retry = RETRY_MIN.min(period);", "let first_retry = RETRY_MIN;", 1),
    (C, "retry = first_retry;", "", 2),
    (C, "retry = first_retry;", "", 3),
    (C, "Ok(Refresh::NoSource) => None,", "Ok(Refresh::NoSource) => Some(period),", 1),
    (C, "wait = None;", "", 1),
    (C, "*retry = (*retry * 2).min(period);", "*retry = (*retry * 2).max(period);", 1),
    (C, "let wait = *retry;\n    *retry = (*retry * 2).min(period);", "*retry = (*retry * 2).min(period);\n    let wait = *retry;", 1),
    (C, "Ok(Refresh::NoTime) => (true, false),", "Ok(Refresh::NoTime) => (true, true),", 1),
    (C, "Ok(Refresh::NoSource) | Err(_) => (true, true),", "Ok(Refresh::NoSource) | Err(_) => (true, false),", 1),
    (C, "if no_source && hourly(&self.missing_source_at) {", "if no_source && hourly(&self.time_failure_at) {", 1),
    (C, "at.set(Some(now));", "", 1),
    (C, "GranularityEnum::MicrosecondsGranularity => GranularityEnum::MillisecondsGranularity,",
     "GranularityEnum::MicrosecondsGranularity => GranularityEnum::MicrosecondsGranularity,", 1),
    (C, "match granularity.unwrap_or(GranularityEnum::SecondsGranularity) {",
     "match granularity.unwrap_or(GranularityEnum::MillisecondsGranularity) {", 1),
    (C, "match granularity.unwrap_or(GranularityEnum::SecondsGranularity) {",
     "match granularity.unwrap_or(GranularityEnum::MinutesGranularity) {", 1,
     "the clock takes Seconds one step lower, as Minutes"),
    (C, "TimeSource::NodeTimeCluster,", "TimeSource::Admin,", 1),
    (C, "persist.run()?;", "", 1),
    (C, "utc_time = Some(value?.into_option());", "utc_time = utc_time.or(Some(value?.into_option()));", 1),
    # the source is asked for again after the exchange: whether there is one, and whether it is the same
    (C, "if let Some(utc_us) = utc_time.flatten() {",
     "if let Some(utc_us) = utc_time.flatten().filter(|_| self.matter.with_state(|s| s.rtc.trusted_time_source()).is_some()) {", 1),
    (C, "if let Some(utc_us) = utc_time.flatten() {",
     "if let Some(utc_us) = utc_time.flatten().filter(|_| self.matter.with_state(|s| s.rtc.trusted_time_source()).is_none_or(|s| s == tts)) {", 1),
    # ---- the adapter: requests
    (A, "Ok(true)", "Ok(false)", 1),
    (A, "entries.take(limit + 1)", "entries.take(limit)", 1),
    (A, "entries.take(limit + 1)", "entries.take(limit + 2)", 1),
    (A, "entries.take(limit + 1)", "entries", 1),
    (A, "if count < limit {", "if count <= limit {", 1),
    (A, "if count < limit {", "if count + 1 < limit {", 1),
    (A, "const TIME_ZONES: usize = Limits::LARGEST.time_zone_max + 1;", "const TIME_ZONES: usize = Limits::LARGEST.time_zone_max;", 1),
    (A, "const DST_OFFSETS: usize = Limits::LARGEST.dst_offset_max + 1;", "const DST_OFFSETS: usize = Limits::LARGEST.dst_offset_max;", 1),
    (A, "[0; TIME_ZONE_SECTION_MAX + PAST_LIMIT]", "[0; TIME_ZONE_SECTION_MAX]", 1),
    (A, "[0; DST_OFFSET_SECTION_MAX + PAST_LIMIT]", "[0; DST_OFFSET_SECTION_MAX]", 1),
    (A, "name: zone.name()?", "name: None", 1),
    (A, "offset: zone.offset()?", "offset: 0", 1),
    (A, "valid_at: zone.valid_at()?", "valid_at: zone.valid_at()?.max(1)", 1),
    (A, "window.valid_until()?.into_option());", "window.valid_until()?.into_option().or(Some(u64::MAX)));", 1),
    # what cannot be decoded reaches the port: as fewer entries, as an empty list, or with another value
    (A, "let entry = entry?;", "let Ok(entry) = entry else { break };", 1),
    (A, "let entry = entry?;", "let Ok(entry) = entry else { continue };", 1),
    (A, "request.time_zone()?.iter()", "request.time_zone().into_iter().flat_map(|list| list.iter())", 1),
    (A, "request.dst_offset()?.iter()", "request.dst_offset().into_iter().flat_map(|list| list.iter())", 1),
    (A, "name: zone.name()?", "name: zone.name().unwrap_or(None)", 1),
    (A, "offset: window.offset()?", "offset: window.offset().unwrap_or(0)", 1),
    (A, "out.get(..count).ok_or(ErrorCode::ResourceExhausted.into())", "out.get(..count).ok_or(ErrorCode::Invalid.into())", 1,
     "no more entries are counted than there is room for"),
    # ---- the adapter: answers and effects
    (A, "Refusal::ConstraintError => ErrorCode::ConstraintError.into(),",
     "Refusal::ConstraintError => ErrorCode::InvalidCommand.into(),", 1),
    (A, "Refusal::ResourceExhausted => ErrorCode::ResourceExhausted.into(),",
     "Refusal::ResourceExhausted => ErrorCode::ConstraintError.into(),", 1),
    (A, "_ => ErrorCode::Invalid.into(),", "_ => ErrorCode::ConstraintError.into(),", 1),
    (A, "answer.map_err(error).and(stored)", "drop(answer);\n        stored", 1),
    (A, "answer.map_err(error).and(stored)", "answer.map_err(error)", 1),
    (A, "Effect::WakeTimer => self.changed.notify(),", "Effect::WakeTimer => {}", 1),
    # the wake of a refusal is lost, that of an accepted command is not
    (A, "Effect::WakeTimer => self.changed.notify(),\n            Effect::StoreRecord(record) => stored = self.storage.store(record),",
     "Effect::WakeTimer => {}\n            Effect::StoreRecord(record) => {\n                self.changed.notify();\n"
     "                stored = self.storage.store(record)\n            }", 1),
    (A, "Effect::StoreRecord(record) => stored = self.storage.store(record),", "", 1),
    (A, "Effect::RemoveRecord => stored = self.storage.remove(),", "", 1),
    (A, "let record = &mut [0; RECORD_MAX];", "let record = &mut [0; RECORD_MAX - 1];", 1,
     "an accepted SetTimeZone leaves no window, so its record is shorter"),
    (A, "let record = &mut [0; RECORD_MAX];", "let record = &mut [0; RECORD_MAX - 1];", 2),
    (A, "self.changed.wait().await", "core::future::pending().await", 1),
    # ---- the adapter: readings
    (A, "for index in 0..controller.handler().time_zone_count()", "for index in 1..controller.handler().time_zone_count()", 1),
    (A, "for index in 0..controller.handler().dst_offset_count()", "for index in 1..controller.handler().dst_offset_count()", 1),
    (A, "controller.handler().time_zone(index)", "controller.handler().time_zone(index + 1)", 1),
    (A, "controller.handler().dst_offset(index)", "controller.handler().dst_offset(0)", 1),
    (A, "name: zone.name.as_deref() })?;", "name: None })?;", 1),
    (A, "name: zone.name.as_deref() })?;", "name: zone.name.as_deref() }).ok();", 1),
    (A, "visit(&DSTOffsetEntry { offset, valid_starting, valid_until })?;",
     "visit(&DSTOffsetEntry { offset, valid_starting, valid_until: valid_until.or(Some(u64::MAX)) })?;", 1),
    (A, "visit(&DSTOffsetEntry { offset, valid_starting, valid_until })?;",
     "visit(&DSTOffsetEntry { offset, valid_starting, valid_until }).ok();", 1),
    (A, "_ => Ok(TimeZoneDatabaseEnum::None),", "_ => Ok(TimeZoneDatabaseEnum::Partial),", 1),
    (A, "0 => Ok(TimeZoneDatabaseEnum::Full),", "0 => Ok(TimeZoneDatabaseEnum::Partial),", 1, "the port has no database: 2"),
    (A, "controller.handler().dst_offset_list_max_size()", "controller.handler().time_zone_list_max_size()", 1),
    (A, "Controller::new(Some(limits), NO_BUILD, NO_PERIOD)", "Controller::new(Some(Limits::DEVICE), NO_BUILD, NO_PERIOD)", 1),
    (A, "const NO_BUILD: u64 = 0;", "const NO_BUILD: u64 = 1;", 1, "the port's clock is not used"),
    # ---- the adapter: life
    (A, "LifecycleOp::Startup => self.load(),", "LifecycleOp::Startup => Ok(()),", 1),
    (A, "LifecycleOp::FactoryReset => self.reset(),", "LifecycleOp::FactoryReset => Ok(()),", 1),
    (A, "LifecycleOp::FactoryReset => self.reset(),", "LifecycleOp::FactoryReset | LifecycleOp::FailSafeExpiry => self.reset(),", 1),
    (A, "load_persist(record)", "load_persist(None)", 1),
    (A, "let mut buf = [0; RECORD_MAX];", "let mut buf = [0; RECORD_MAX - 1];", 1),
    (A, "self.storage.load(&mut buf)?;", "self.storage.load(&mut buf).unwrap_or(None);", 1),
    (A, "Err(Refusal::BadRecord) => self.storage.bad_record(),", "Err(Refusal::BadRecord) => {}", 1),
    (A, "Err(Refusal::BadRecord) => self.storage.bad_record(),", "", 1),
]


def changed(text, old, new, which):
    """The text with the change at one of the places of `old`, and the number of its line."""
    at = -1
    for _ in range(which):
        at = text.index(old, at + 1)
    return text[:at] + new + text[at + len(old):], text.count("\n", 0, at) + 1


def put(name, text):
    """Written even where it is equal: cargo goes by the time of a file."""
    target = COPY / FILES[name][1]
    target.parent.mkdir(parents=True, exist_ok=True)
    target.write_text(text)


def shown(text):
    return " / ".join(line.strip() for line in text.splitlines()) or "(dropped)"


def copy_crates():
    """The crates into the folder of the copy; the crate `timesync` beside them, where `differ` looks for it."""
    COPY.parent.mkdir(parents=True, exist_ok=True)
    shutil.copytree(HERE, COPY, ignore=shutil.ignore_patterns("target"), dirs_exist_ok=True)
    shutil.copytree(HERE.parent / "rust", COPY.parent / "rust", ignore=shutil.ignore_patterns("target", "bench"), dirs_exist_ok=True)


def program(name):
    """The program that a change of this file is tried on."""
    return "host" if name == A else "differ"


def ask(asked, sequences):
    """The status of the program, none where it does not build, and the output."""
    environment = dict(os.environ, CARGO_TARGET_DIR=str(BUILD))
    environment.setdefault("TIMESYNC_LIB_DIR", str(HERE.parent / "target/staticlib"))
    build = subprocess.run(["cargo", "build", "--offline", "--profile", PROFILE, "-p", asked], cwd=COPY, env=environment,
                           capture_output=True, text=True)
    if build.returncode:
        return None, build.stderr
    size = {"differ": [SEED, STEPS, sequences], "host": ["--seed", SEED, "--answers", HOST_ANSWERS]}
    try:
        run = subprocess.run([BUILD / PROFILE / asked, *size[asked]], capture_output=True, text=True, timeout=LONGEST_RUN_S)
    except subprocess.TimeoutExpired:
        return 1, "difference: it does not end"
    return run.returncode, run.stdout


def judged(status, output, reason):
    """The verdict on a change, and why."""
    if status is None:
        return "NOT BUILT", "; ".join(line for line in output.splitlines() if line.startswith("error"))[:200]
    if status:
        smaller = (line for line in output.splitlines() if line.startswith("made smaller"))
        return "noticed", next(smaller, output[:120].strip()).removeprefix("made smaller: ")
    return ("equivalent", reason[0]) if reason else ("NOT NOTICED", "")


def option(name, default):
    words = sys.argv[1:]
    return words[words.index(name) + 1] if name in words else default


def unchanged(programs, sequences):
    """Stops where a program finds a difference already."""
    for asked in programs:
        status, output = ask(asked, sequences)
        print(f"unchanged, {asked}: {'no difference' if status == 0 else 'NOT USABLE'}", flush=True)
        if status != 0:
            sys.exit(output)


def main():
    only, sequences = option("--only", ""), option("--sequences", SEQUENCES)
    copy_crates()
    texts = {name: path.read_text() for name, (path, _) in FILES.items()}
    for name in FILES:
        put(name, texts[name])
    tried = [(change, *changed(texts[change[0]], *change[1:4])) for change in CHANGES]
    tried = [(change, text, line) for change, text, line in tried if only in f"{change[0]}.rs:{line} {change[1]}"]
    count = {program(change[0]): {"noticed": 0, "equivalent": 0, "NOT NOTICED": 0, "NOT BUILT": 0} for change, _, _ in tried}
    unchanged(count, sequences)
    begun = time.time()
    for (name, old, new, _, *reason), text, line in tried:
        put(name, text)
        verdict, why = judged(*ask(program(name), sequences), reason)
        put(name, texts[name])
        count[program(name)][verdict] += 1
        print(f"{verdict:11} | {name}.rs:{line} | {shown(old)} -> {shown(new)} | {why[:160]}", flush=True)
    for asked, verdicts in count.items():
        print(f"{asked}:", ", ".join(f"{n} {verdict}" for verdict, n in verdicts.items()))
    print(f"{time.time() - begun:.0f} s")
    sys.exit(1 if any(verdicts["NOT NOTICED"] or verdicts["NOT BUILT"] for verdicts in count.values()) else 0)


main()
