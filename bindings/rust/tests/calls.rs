//! Each function once, with values that are calculated by hand.

use tongsthyme::{
    judge, line, Answer, EcbOp, EcbReply, ElementOp, ElementReply, Fault, LatchOp, LatchReply,
    LineError, Machine, Mode, Object, OpenError, Operation, Phase, Reply, Request, RequestForm,
    StepError, Verdict, VolumeOp, VolumeReply, Wake, WakeCode,
};

const EMPTY: &[u8] =
    b"JOURNAL 1\nCALLERS 2\nELEMENTS 1\nVOLUMES 1\nLATCHES 1\nQUOTA 2 1\nBUDGET 0\nBUDGET 0\nECB 0\nEVENTS\nEND 0\n";

#[test]
fn judges() {
    assert_eq!(judge(EMPTY), Ok(Verdict::Legal { events: 0 }));
    assert_eq!(
        judge(b""),
        Ok(Verdict::Malformed {
            line: 1,
            fault: Fault::Cut
        })
    );
}

#[test]
fn opens_legal_journals_only() {
    let wrong = String::from_utf8_lossy(EMPTY).replace("END 0", "0 E0 0 ARM = WAITING\nEND 1");
    let error = Machine::open(wrong.as_bytes()).map(|_| ()).unwrap_err();
    assert_eq!(error, OpenError::NotLegal(Verdict::Illegal { line: 11 }));
}

#[test]
fn steps() {
    let mut machine = Machine::open(EMPTY).unwrap();
    let arm = Operation::Ecb(0, EcbOp::Arm);
    assert_eq!(
        machine.step(0, arm),
        Ok(Answer {
            place: 0,
            reply: Reply::Ecb(EcbReply::Armed)
        })
    );
    assert_eq!(machine.step(1, arm), Err(StepError::NotAdmitted));
    let post = Operation::Ecb(0, EcbOp::Post(7));
    assert_eq!(
        machine.step(1, post),
        Ok(Answer {
            place: 1,
            reply: Reply::Ecb(EcbReply::Woke(0))
        })
    );
    assert_eq!(
        machine.step(1, post),
        Ok(Answer {
            place: 2,
            reply: Reply::Ecb(EcbReply::Already(7))
        })
    );
    let word = (1 << 30) + 7;
    assert_eq!(
        machine.object(Object::Ecb(0)),
        Some(Answer {
            place: 3,
            reply: Reply::Ecb(EcbReply::Word(word))
        })
    );
    assert_eq!(machine.object(Object::Ecb(1)), None);
}

#[test]
fn shows_latches() {
    let mut machine = Machine::open(EMPTY).unwrap();
    let obtain = |requestor, form| LatchOp::Obtain {
        latch: 0,
        requestor,
        mode: Mode::Exclusive,
        form,
    };
    let granted = machine
        .step(1, Operation::Latch(obtain(5, RequestForm::Waiting)))
        .unwrap();
    assert_eq!(granted.reply, Reply::Latch(LatchReply::Granted(0)));
    let queued = machine
        .step(0, Operation::Latch(obtain(6, RequestForm::Posted(0))))
        .unwrap();
    assert_eq!(queued.reply, Reply::Latch(LatchReply::Queued(1)));
    let second = Request {
        request: 1,
        caller: 0,
        requestor: 6,
        mode: Mode::Exclusive,
        form: RequestForm::Posted(0),
    };
    assert_eq!(machine.requests(0)[1], second);
    assert_eq!(machine.requests(1), []);
    assert_eq!(machine.wakes(), []);
    let release = LatchOp::Release {
        latch: 0,
        request: 0,
        conditional: false,
    };
    machine.step(1, Operation::Latch(release)).unwrap();
    assert_eq!(
        machine.wakes(),
        [Wake {
            caller: 0,
            request: 1,
            code: WakeCode::Granted,
            ecb: Some(0)
        }]
    );
    assert_eq!(machine.requests(0), [second]);
}

#[test]
fn writes_lines() {
    let obtain = Operation::Latch(LatchOp::Obtain {
        latch: 1,
        requestor: u64::MAX,
        mode: Mode::Shared,
        form: RequestForm::Posted(3),
    });
    let state = |phase, code| {
        Reply::Element(ElementReply::State {
            generation: 9,
            phase,
            code,
        })
    };
    let test = Operation::Element(5, ElementOp::Test);
    for (operation, reply, text) in [
        (
            obtain,
            Reply::Latch(LatchReply::Queued(4)),
            "2 L 6 OBTAIN 1 18446744073709551615 S P3 = QUEUED 4\n",
        ),
        (
            test,
            state(Phase::Released, 8),
            "2 P5 6 TEST = STATE 9 RELEASED 8\n",
        ),
        (
            Operation::Volume(0, VolumeOp::Write(1)),
            Reply::Volume(VolumeReply::Stored),
            "2 V0 6 WRITE 1 = STORED\n",
        ),
    ] {
        let answer = Answer { place: 6, reply };
        assert_eq!(line(2, operation, answer).as_deref(), Ok(text));
    }
    for reply in [state(Phase::Free, 8), Reply::Volume(VolumeReply::Value(1))] {
        let answer = Answer { place: 6, reply };
        assert_eq!(line(2, test, answer), Err(LineError::NoSuchEvent));
    }
}

#[test]
fn judges_on_threads() {
    std::thread::scope(|scope| {
        for _ in 0..4 {
            scope.spawn(|| {
                (0..1000).for_each(|_| assert_eq!(judge(EMPTY), Ok(Verdict::Legal { events: 0 })))
            });
        }
    });
}
