//! Asks both sides. Each call is made twice, through the C interface, where every field of the
//! answer is compared and empty slices are null, and through the safe wrapper.

use crate::case::{Case, Question};
use crate::lent::Lent;
use model::{Job, Told};
use nufsadeem::{raw, Circuit, CircuitHead, Fault, JobHead, Refusal, Verdict};
use std::fmt::Debug;
use std::ptr;

/// Compares one case. Answers with the number of calls of the interface that it holds.
pub fn ask(case: &Case) -> Result<u64, String> {
    let lent = case.clone();
    let (lines, gates) = (lent.lines, &lent.gates[..]);
    let calls = match &lent.question {
        Question::Forward { level, state } => forward(lines, gates, *level, *state),
        Question::Backward { level, state } => backward(lines, gates, *level, *state),
        Question::Catches { vector, fault } => catches(lines, gates, *vector, *fault),
        Question::CatchesMultiple { vector, entries } => multiple(lines, gates, *vector, entries),
        Question::Judge { vectors, class } => judge(lines, gates, vectors, *class),
        Question::TestFor { fault } => test_for(lines, gates, *fault),
        Question::BackwardSet { room } => backward_set(lines, gates, *room),
        Question::CompactSet { room } => compact_set(lines, gates, *room),
        Question::Drop { vector, list } => drop_caught(lines, gates, *vector, list),
        Question::WriteJob {
            classes,
            vectors,
            room,
        } => write_job(lines, gates, *classes, vectors, *room),
        Question::ReadJob {
            bytes,
            gate_room,
            vector_room,
        } => read_job(bytes, *gate_room, *vector_room),
        Question::Report { bytes, room } => report(bytes, *room),
        Question::ImportReal { text, room } => import_real(text, *room),
        Question::ExportReal { room } => export_real(lines, gates, *room),
    }?;
    if lent == *case {
        Ok(calls)
    } else {
        Err("a list that was only to be read has changed".to_string())
    }
}

fn forward(lines: u32, gates: &[u32], level: u32, state: u32) -> Result<u64, String> {
    let told = model::forward(lines, gates, level, state);
    let run = unsafe { raw::nuf_forward(lines, start(gates), gates.len(), level, state) };
    let fields = [run.number, run.place, run.state];
    same("nuf_forward", fields, answer(&told, |state| [0, 0, *state]))?;
    let safe = Circuit::new(lines, gates).forward(level, state);
    same("Circuit::forward", safe, result(told))?;
    Ok(1)
}

fn backward(lines: u32, gates: &[u32], level: u32, state: u32) -> Result<u64, String> {
    let told = model::backward(lines, gates, level, state);
    let run = unsafe { raw::nuf_backward(lines, start(gates), gates.len(), level, state) };
    let fields = [run.number, run.place, run.state];
    same(
        "nuf_backward",
        fields,
        answer(&told, |state| [0, 0, *state]),
    )?;
    let safe = Circuit::new(lines, gates).backward(level, state);
    same("Circuit::backward", safe, result(told))?;
    Ok(1)
}

fn catches(lines: u32, gates: &[u32], vector: u32, fault: [u32; 4]) -> Result<u64, String> {
    let told = model::catches(lines, gates, vector, fault);
    let catch = unsafe { raw::nuf_catches(lines, start(gates), gates.len(), vector, fault.into()) };
    let fields = [catch.number, catch.place, catch.caught];
    let expected = answer(&told, |caught| [0, 0, u32::from(*caught)]);
    same("nuf_catches", fields, expected)?;
    let safe = Circuit::new(lines, gates).catches(vector, fault.into());
    same("Circuit::catches", safe, result(told))?;
    Ok(1)
}

fn multiple(lines: u32, gates: &[u32], vector: u32, entries: &[u32]) -> Result<u64, String> {
    let told = model::catches_multiple(lines, gates, vector, entries);
    let catch = unsafe {
        raw::nuf_catches_multiple(
            lines,
            start(gates),
            gates.len(),
            vector,
            start(entries),
            entries.len(),
        )
    };
    let fields = [catch.number, catch.place, catch.caught];
    let expected = answer(&told, |caught| [0, 0, u32::from(*caught)]);
    same("nuf_catches_multiple", fields, expected)?;
    let safe = Circuit::new(lines, gates).catches_multiple(vector, entries);
    same("Circuit::catches_multiple", safe, result(told))?;
    Ok(1)
}

fn judge(lines: u32, gates: &[u32], vectors: &[u32], class: u32) -> Result<u64, String> {
    let told = model::judge(lines, gates, vectors, class);
    let expected = answer(&told, |verdict| {
        let complete = u32::from(verdict.first_uncaught.is_none());
        let first = verdict.first_uncaught.map_or(model::BLANK, |f| f.words());
        let [a, b, c, d] = first;
        [0, 0, verdict.caught, verdict.total, complete, a, b, c, d]
    });
    let (g, g_len, v, v_len) = (start(gates), gates.len(), start(vectors), vectors.len());
    let judged = unsafe { raw::nuf_judge(lines, g, g_len, v, v_len, class) };
    same("nuf_judge", verdict_fields(judged), expected)?;
    let covered = unsafe { raw::nuf_cover(lines, g, g_len, v, v_len, class) };
    same("nuf_cover", verdict_fields(covered), expected)?;
    let told = result(told.map(|verdict| Verdict {
        caught: verdict.caught,
        total: verdict.total,
        first_uncaught: verdict.first_uncaught.map(|fault| fault.words().into()),
    }));
    let circuit = Circuit::new(lines, gates);
    same("Circuit::judge", circuit.judge(vectors, class), told)?;
    same("Circuit::cover", circuit.cover(vectors, class), told)?;
    Ok(2)
}

fn test_for(lines: u32, gates: &[u32], fault: [u32; 4]) -> Result<u64, String> {
    let told = model::test_for(lines, gates, fault);
    let test = unsafe { raw::nuf_test_for(lines, start(gates), gates.len(), fault.into()) };
    let fields = [test.number, test.place, test.vector];
    let expected = answer(&told, |vector| [0, 0, *vector]);
    same("nuf_test_for", fields, expected)?;
    let safe = Circuit::new(lines, gates).test_for(fault.into());
    same("Circuit::test_for", safe, result(told))?;
    Ok(1)
}

fn backward_set(lines: u32, gates: &[u32], room: usize) -> Result<u64, String> {
    let told = model::backward_set(lines, gates, room);
    let written = told.clone().unwrap_or_default();
    let call = "nuf_backward_set";
    let mut lent = Lent::words(room);
    let (r, r_len) = (start_mut(lent.lend()), room);
    let count = unsafe { raw::nuf_backward_set(lines, start(gates), gates.len(), r, r_len) };
    same(call, count_fields(count), counted(&told))?;
    lent.must_hold(call, &written)?;
    let call = "Circuit::backward_set_into";
    let mut lent = Lent::words(room);
    let safe = Circuit::new(lines, gates).backward_set_into(lent.lend());
    same(call, safe, result(told.map(|set| set.len())))?;
    lent.must_hold(call, &written)?;
    Ok(1)
}

fn compact_set(lines: u32, gates: &[u32], room: usize) -> Result<u64, String> {
    let told = model::compact_set(lines, gates, room);
    let written = told.clone().unwrap_or_default();
    let call = "nuf_compact_set";
    let mut lent = Lent::words(room);
    let (r, r_len) = (start_mut(lent.lend()), room);
    let count = unsafe { raw::nuf_compact_set(lines, start(gates), gates.len(), r, r_len) };
    same(call, count_fields(count), counted(&told))?;
    lent.must_hold(call, &written)?;
    let call = "Circuit::compact_set_into";
    let mut lent = Lent::words(room);
    let safe = Circuit::new(lines, gates).compact_set_into(lent.lend());
    same(call, safe, result(told.map(|set| set.len())))?;
    lent.must_hold(call, &written)?;
    Ok(1)
}

/// Over plain numbers, and over records where the numbers are whole records.
fn drop_caught(lines: u32, gates: &[u32], vector: u32, list: &[u32]) -> Result<u64, String> {
    let told = model::drop_caught(lines, gates, vector, list);
    let after = match &told {
        Ok((after, _)) => after.clone(),
        Err(_) => list.to_vec(),
    };
    let expected = answer(&told, |(_, left)| [0, 0, *left]);
    let told = result(told.map(|(_, left)| left as usize));
    let circuit = Circuit::new(lines, gates);
    let (g, g_len) = (start(gates), gates.len());

    let call = "nuf_drop";
    let mut lent = Lent::list(list);
    let (l, l_len) = (start_mut(lent.lend()), list.len());
    let count = unsafe { raw::nuf_drop(lines, g, g_len, vector, l, l_len) };
    same(call, count_fields(count), expected)?;
    lent.must_hold(call, &after)?;
    let call = "Circuit::drop_caught_words";
    let mut lent = Lent::list(list);
    same(call, circuit.drop_caught_words(vector, lent.lend()), told)?;
    lent.must_hold(call, &after)?;

    if list.len() % 4 != 0 {
        return Ok(1);
    }
    let after = records(&after);
    let call = "nuf_drop_records";
    let mut lent = Lent::records(&records(list));
    let (l, l_len) = (start_mut(lent.lend()), list.len() / 4);
    let count = unsafe { raw::nuf_drop_records(lines, g, g_len, vector, l, l_len) };
    same(call, count_fields(count), expected)?;
    lent.must_hold(call, &after)?;
    let call = "Circuit::drop_caught";
    let mut lent = Lent::records(&records(list));
    same(call, circuit.drop_caught(vector, lent.lend()), told)?;
    lent.must_hold(call, &after)?;
    Ok(2)
}

fn write_job(
    lines: u32,
    gates: &[u32],
    classes: u32,
    vectors: &[u32],
    room: usize,
) -> Result<u64, String> {
    let (gates, vectors) = (gates.to_vec(), vectors.to_vec());
    let job = Job {
        lines,
        classes,
        gates: gates.clone(),
        vectors: vectors.clone(),
    };
    let told = model::write_job(&job, room);
    let written = told.clone().unwrap_or_default();
    let call = "nuf_write_job";
    let mut lent = Lent::bytes(room);
    let count = unsafe {
        raw::nuf_write_job(
            lines,
            classes,
            start(&gates),
            gates.len(),
            start(&vectors),
            vectors.len(),
            start_mut(lent.lend()),
            room,
        )
    };
    same(call, count_fields(count), counted(&told))?;
    lent.must_hold(call, &written)?;
    let call = "Job::write_into";
    let mut lent = Lent::bytes(room);
    let safe = nufsadeem::Job {
        lines,
        classes,
        gates,
        vectors,
    };
    let length = result(told.map(|image| image.len()));
    same(call, safe.write_into(lent.lend()), length)?;
    lent.must_hold(call, &written)?;
    Ok(1)
}

fn read_job(bytes: &[u8], gate_room: usize, vector_room: usize) -> Result<u64, String> {
    let told = model::read_job(bytes, gate_room, vector_room);
    let (written_gates, written_vectors) = match &told {
        Ok(job) => (job.gates.clone(), job.vectors.clone()),
        Err(_) => (vec![], vec![]),
    };
    let call = "nuf_read_job";
    let (mut gates, mut vectors) = (Lent::words(gate_room), Lent::words(vector_room));
    let read = unsafe {
        raw::nuf_read_job(
            start(bytes),
            bytes.len(),
            start_mut(gates.lend()),
            gate_room,
            start_mut(vectors.lend()),
            vector_room,
        )
    };
    let head = |job: &Job| JobHead {
        lines: job.lines,
        classes: job.classes,
        gates: job.gates.len() / 3,
        vectors: job.vectors.len(),
    };
    let expected = answer(&told, |job| {
        let head = head(job);
        let (gates, vectors) = (head.gates as u32, head.vectors as u32);
        [0, 0, head.lines, head.classes, gates, vectors]
    });
    let fields = [
        read.number,
        read.place,
        read.lines,
        read.classes,
        read.gates,
        read.vectors,
    ];
    same(call, fields, expected)?;
    gates.must_hold(call, &written_gates)?;
    vectors.must_hold(call, &written_vectors)?;
    let call = "read_job_into";
    let (mut gates, mut vectors) = (Lent::words(gate_room), Lent::words(vector_room));
    let safe = nufsadeem::read_job_into(bytes, gates.lend(), vectors.lend());
    same(call, safe, result(told.map(|job| head(&job))))?;
    gates.must_hold(call, &written_gates)?;
    vectors.must_hold(call, &written_vectors)?;
    Ok(1)
}

fn report(bytes: &[u8], room: usize) -> Result<u64, String> {
    let text = model::report(bytes).into_bytes();
    let told = match text.len() <= room {
        true => Ok(text),
        false => Err(model::Refusal {
            number: 10,
            place: 0,
        }),
    };
    let written = told.clone().unwrap_or_default();
    let call = "nuf_report";
    let mut lent = Lent::bytes(room);
    let (o, o_len) = (start_mut(lent.lend()), room);
    let count = unsafe { raw::nuf_report(start(bytes), bytes.len(), o, o_len) };
    same(call, count_fields(count), counted(&told))?;
    lent.must_hold(call, &written)?;
    let call = "report_into";
    let mut lent = Lent::bytes(room);
    let safe = nufsadeem::report_into(bytes, lent.lend());
    same(call, safe, result(told.map(|text| text.len())))?;
    lent.must_hold(call, &written)?;
    Ok(1)
}

fn import_real(text: &[u8], room: usize) -> Result<u64, String> {
    let told = model::import_real(text, room);
    let written = match &told {
        Ok(circuit) => circuit.words(),
        Err(_) => vec![],
    };
    let call = "nuf_import_real";
    let mut lent = Lent::words(room);
    let (g, g_len) = (start_mut(lent.lend()), room);
    let read = unsafe { raw::nuf_import_real(start(text), text.len(), g, g_len) };
    let fields = [read.number, read.place, read.lines, read.gates];
    let expected = answer(&told, |circuit| {
        [0, 0, circuit.lines, circuit.depth() as u32]
    });
    same(call, fields, expected)?;
    lent.must_hold(call, &written)?;
    let call = "import_real_into";
    let mut lent = Lent::words(room);
    let safe = nufsadeem::import_real_into(text, lent.lend());
    let head = |circuit: model::Circuit| CircuitHead {
        lines: circuit.lines,
        gates: circuit.depth(),
    };
    same(call, safe, result(told.map(head)))?;
    lent.must_hold(call, &written)?;
    Ok(1)
}

fn export_real(lines: u32, gates: &[u32], room: usize) -> Result<u64, String> {
    let told = model::export_real(lines, gates, room).map(String::into_bytes);
    let written = told.clone().unwrap_or_default();
    let call = "nuf_export_real";
    let mut lent = Lent::bytes(room);
    let (o, o_len) = (start_mut(lent.lend()), room);
    let count = unsafe { raw::nuf_export_real(lines, start(gates), gates.len(), o, o_len) };
    same(call, count_fields(count), counted(&told))?;
    lent.must_hold(call, &written)?;
    let call = "Circuit::export_real_into";
    let mut lent = Lent::bytes(room);
    let safe = Circuit::new(lines, gates).export_real_into(lent.lend());
    same(call, safe, result(told.map(|text| text.len())))?;
    lent.must_hold(call, &written)?;
    Ok(1)
}

fn same<T: PartialEq + Debug>(call: &str, library: T, model: T) -> Result<(), String> {
    if library == model {
        Ok(())
    } else {
        Err(format!(
            "{}: the library says {:?}, the simulator {:?}",
            call, library, model
        ))
    }
}

/// The fields of an answer, `number` and `place` first; all others are 0 in a refusal.
fn answer<T, const N: usize>(told: &Told<T>, fields: impl Fn(&T) -> [u32; N]) -> [u32; N] {
    match told {
        Ok(answer) => fields(answer),
        Err(refusal) => {
            let mut refused = [0; N];
            refused[0] = refusal.number;
            refused[1] = refusal.place;
            refused
        }
    }
}

fn counted<T>(told: &Told<Vec<T>>) -> [u32; 3] {
    answer(told, |written| [0, 0, written.len() as u32])
}

fn count_fields(count: raw::Count) -> [u32; 3] {
    [count.number, count.place, count.count]
}

fn verdict_fields(verdict: raw::Verdict) -> [u32; 9] {
    let [class, place, line, value] = <[u32; 4]>::from(verdict.first);
    [
        verdict.number,
        verdict.place,
        verdict.caught,
        verdict.total,
        verdict.complete,
        class,
        place,
        line,
        value,
    ]
}

fn result<T>(told: Told<T>) -> Result<T, Refusal> {
    told.map_err(|refusal| Refusal {
        number: refusal.number,
        place: refusal.place,
    })
}

fn records(words: &[u32]) -> Vec<Fault> {
    let record = |words: &[u32]| Fault {
        class: words[0],
        place: words[1],
        line: words[2],
        value: words[3],
    };
    words.chunks_exact(4).map(record).collect()
}

/// Null for an empty slice, which the interface allows and Rust's own slices never show.
fn start<T>(slice: &[T]) -> *const T {
    match slice {
        [] => ptr::null(),
        _ => slice.as_ptr(),
    }
}

fn start_mut<T>(slice: &mut [T]) -> *mut T {
    match slice {
        [] => ptr::null_mut(),
        _ => slice.as_mut_ptr(),
    }
}
