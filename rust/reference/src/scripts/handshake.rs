//! The handshake: offers, wrong bytes, command bytes, resets, and the record
//! that was never started.

use super::bench::Bench;
use super::ways;
use super::Stored;
use crate::controller::{Answer, Code, Offer, GO_ON};

pub fn all() -> Vec<Stored> {
    vec![
        Stored::new("never-started", never_started()),
        Stored::new("wrong-bytes", wrong_bytes()),
        Stored::new("command-bytes", command_bytes()),
        Stored::new("resets", resets()),
    ]
}

fn never_started() -> Bench {
    let mut bench = Bench::new("Calls before the first start.");
    bench.image();
    bench.refused(Code::Place);
    bench.lower(GO_ON);
    bench.refused(Code::Place);
    bench.feed(&[]);
    bench.refused(Code::Place);
    bench.surface(0, &[]);
    bench.refused(Code::Place);

    bench.note("No command finds a table, and status 3 bit 7 is not due.");
    bench.read(17, 3, 1);
    bench.finished([0x01, 0x08, 0, 0]);
    bench.write(17, &[0x5A; 532]);
    bench.finished([0x41, 0x08, 0, 0]);
    bench.holds(0x5A);
    bench.verify(17, &[0x5B; 532]);
    bench.finished([0x41, 0x08, 0, 0]);
    bench.read(0xFF_FFFF, 0, 0);
    bench.finished([0x01, 0x08, 0, 0]);
    bench.read(0xFF_FFFE, 0, 0);
    bench.finished([0; 4]);
    bench.holds(0x5B);
    bench.read(9728, 0, 0);
    bench.finished([0x01, 0, 0x40, 0]);

    bench.note("Image has nothing to write, in whatever phase.");
    bench.raise();
    bench.image();
    bench.refused(Code::Place);
    bench.lower(GO_ON);
    bench.image();
    bench.refused(Code::Place);
    bench.feed(&[2, 0xFF, 0xFF, 0xFE]);
    bench.raise();
    bench.lower(GO_ON);
    bench.image();
    bench.refused(Code::Place);
    bench.feed(&[1, 2, 3]);
    bench.raise();
    bench.lower(GO_ON);
    bench.finished([0; 4]);

    bench.note("A reset makes bit 7 due here too.");
    bench.reset();
    bench.said(Answer::Wait);
    bench.read(17, 0, 0);
    bench.finished([0x01, 0x08, 0x80, 0]);
    bench.raise();
    bench.raise();
    bench.refused(Code::Place);
    bench.lower(0);
    bench.finished([0x80, 0, 0, 0]);
    bench
}

fn wrong_bytes() -> Bench {
    let mut bench =
        Bench::new("A wrong byte at each offer breaks off and is no finish of a command.");
    bench.started(&[], &[]);
    bench.raise();
    bench.said(Answer::Offer(Offer::Command));
    bench.lower(0x54);
    bench.finished([0x80, 0, 0, 0]);
    bench.command(&[0, 0, 0, 17, 0, 1]);
    bench.said(Answer::Offer(Offer::Read));
    bench.lower(0xAA);
    bench.finished([0x80, 0, 0, 0]);
    bench.command(&[1, 0, 0, 17]);
    bench.said(Answer::Offer(Offer::Write));
    bench.lower(0x00);
    bench.finished([0x80, 0, 0, 0]);
    bench.command(&[2, 0, 0, 17]);
    bench.said(Answer::Offer(Offer::Verify));
    bench.lower(0xFF);
    bench.finished([0x80, 0, 0, 0]);
    for opcode in [1, 2] {
        bench.up_to_data(opcode, 17);
        bench.feed(&[0x40 + opcode; 532]);
        bench.raise();
        bench.said(Answer::Offer(Offer::Act));
        bench.lower(0x56);
        bench.finished([0x80, 0, 0, 0]);
        bench.holds(0x40 + opcode);
    }

    bench.note("Bit 7 is still due, the block is as it was, and the next offer is 01.");
    bench.read(17, 0, 1);
    bench.good();
    bench.finished([0, 0, 0x80, 0]);
    for byte in [0x15, 0x50, 0x65, 0x5D, 0x05, 0x01] {
        bench.raise();
        bench.lower(byte);
        bench.finished([0x80, 0, 0, 0]);
    }

    bench.note("Too many data bytes, broken off: the next commands know nothing of them.");
    bench.up_to_data(1, 17);
    bench.feed(&[0x77; 533]);
    bench.raise();
    bench.lower(0x00);
    bench.finished([0x80, 0, 0, 0]);
    bench.read(17, 0, 1);
    bench.good();
    bench.finished([0; 4]);
    bench.write(17, &[0x78; 10]);
    bench.said_write(17);
    bench.good();
    bench.finished([0; 4]);
    bench.up_to_data(2, 18);
    bench.feed(&[0x77; 600]);
    bench.raise();
    bench.lower(0x54);
    bench.up_to_data(2, 18);
    bench.raise();
    bench.lower(GO_ON);
    bench.said_write(18);
    bench.good();
    bench.good();
    bench.finished([0; 4]);
    bench.holds(0);
    bench
}

fn command_bytes() -> Bench {
    let mut bench = Bench::new("Command bytes: too few, unknown, too many, in pieces, none.");
    bench.started(&[], &[]);
    bench.ready();
    for opcode in [0, 1, 2] {
        let needed = if opcode == 0 { 6 } else { 4 };
        for count in 1..needed {
            let command = [opcode, 0, 0, 17, 1];
            bench.feed(&command[..count]);
            bench.raise();
            bench.said(Answer::Offer(Offer::Command));
            bench.lower(GO_ON);
            bench.said(Answer::Wait);
        }
    }
    bench.note("No bytes at all, and a feed of nothing.");
    bench.raise();
    bench.said(Answer::Offer(Offer::Command));
    bench.lower(GO_ON);
    bench.feed(&[]);
    bench.said(Answer::Wait);
    bench.raise();
    bench.said(Answer::Offer(Offer::Command));
    bench.lower(GO_ON);
    bench.note("Unknown opcodes.");
    for opcode in [3, 4, 6, 0x10, 0x55, 0x80, 0xFF] {
        bench.feed(&[opcode, 0, 0, 17, 0, 1]);
        bench.raise();
        bench.said(Answer::Offer(Offer::Command));
        bench.lower(GO_ON);
    }

    bench.note("The dropped bytes are gone: these four are a whole write.");
    bench.feed(&[0, 0, 0, 18]);
    bench.raise();
    bench.said(Answer::Offer(Offer::Command));
    bench.lower(GO_ON);
    bench.feed(&[1, 0, 0, 17]);
    bench.raise();
    bench.said(Answer::Offer(Offer::Write));
    bench.lower(GO_ON);
    bench.feed(&[]);
    bench.feed(&[0x31; 532]);
    bench.raise();
    bench.lower(GO_ON);
    bench.said_write(17);
    bench.good();
    bench.finished([0, 0, 0x80, 0]);

    bench.note("A read of which all bytes come alone, with feeds of nothing between.");
    bench.ready();
    for byte in [0, 0, 0, 17, 0, 1] {
        bench.feed(&[byte]);
        bench.feed(&[]);
    }
    bench.raise();
    bench.said(Answer::Offer(Offer::Read));
    bench.lower(GO_ON);
    bench.said_read(17);
    bench.good();
    bench.finished([0; 4]);
    bench.holds(0x31);

    bench.note("Bytes after the sixth are ignored, also in pieces.");
    bench.command(&[0, 0, 0, 18, 0, 1, 0xFF, 0xFF, 0xFF]);
    bench.lower(GO_ON);
    bench.said_read(18);
    bench.good();
    bench.ready();
    bench.feed(&[0, 0, 0, 19, 1]);
    bench.feed(&[1, 9, 9]);
    bench.feed(&[9; 4096]);
    bench.raise();
    bench.lower(GO_ON);
    bench.said_read(19);
    bench.crc(1);
    bench.good();
    bench.finished([0x08, 0, 0, 0]);

    bench.note("Writes with five, six and more bytes: the number is in the first four.");
    for (opcode, count) in [(1, 5), (1, 6), (1, 7), (2, 5), (2, 6), (2, 40)] {
        let mut command = vec![0xEE; count];
        command[..4].copy_from_slice(&[opcode, 0, 0, 20]);
        bench.command(&command);
        bench.lower(GO_ON);
        bench.feed(&[0x32; 532]);
        bench.raise();
        bench.lower(GO_ON);
        bench.said_write(20);
        bench.good();
        if opcode == 2 {
            bench.good();
        }
        bench.finished([0; 4]);
    }

    bench.note("Two commands' bytes without a raise between them: the first counts.");
    bench.ready();
    bench.feed(&[1, 0, 0, 21]);
    bench.feed(&[1, 0, 0, 22]);
    bench.raise();
    bench.said(Answer::Offer(Offer::Write));
    bench.lower(GO_ON);
    bench.feed(&[0x33; 532]);
    bench.raise();
    bench.lower(GO_ON);
    bench.said_write(21);
    bench.good();
    bench.finished([0; 4]);
    bench
}

fn resets() -> Bench {
    let mut bench = Bench::new("A reset wherever no answer is awaited, then status 3 bit 7.");
    for way in ways::quiet() {
        bench.note(way.name);
        way.enter(&mut bench);
        bench.reset();
        bench.said(Answer::Wait);
        bench.read(17, 0, 1);
        bench.good();
        bench.finished([0, 0, 0x80, 0]);
    }
    bench.note("Several resets are as one, and a wrong byte neither shows nor clears bit 7.");
    bench.reset();
    bench.reset();
    bench.raise();
    bench.said(Answer::Offer(Offer::Command));
    bench.lower(0x10);
    bench.finished([0x80, 0, 0, 0]);
    bench.read(0xFF_FFFE, 0, 0);
    bench.finished([0, 0, 0x80, 0]);

    bench.note("What a failed command shows, and what is left when bit 7 was shown.");
    bench.reset();
    bench.read(9728, 0, 0);
    bench.finished([0x01, 0, 0xC0, 0]);
    bench.read(9728, 0, 0);
    bench.finished([0x01, 0, 0x40, 0]);
    bench.reset();
    bench.send(1, 17, &[&[0x60; 533]]);
    bench.finished([0x41, 0, 0x80, 0]);

    bench.note("A reset keeps the table, its mark and the data; the mark leads to a store.");
    bench.started(&[4928], &[17, 18]);
    bench.verify(17, &[0x61; 532]);
    bench.trial_passes();
    bench.said(Answer::Store);
    bench.reset();
    bench.refused(Code::Place);
    bench.timeout();
    bench.finished([0x05, 0, 0x80, 0]);
    bench.table_is(&[4928], &[18]);
    bench.reset();
    bench.holds(0x61);
    bench.table_is(&[4928], &[18]);
    bench.raise();
    bench.said(Answer::Offer(Offer::Command));
    bench.reset();
    bench.read(17, 0, 1);
    bench.good();
    bench.ended([0, 0, 0x80, 0]);

    bench.note("A reset keeps the latch.");
    bench.reset();
    bench.read(17, 0, 1);
    bench.no_settle();
    bench.finished([0x11, 0, 0x80, 0]);
    bench.reset();
    bench.write(17, &[0x62; 532]);
    bench.finished([0x11, 0, 0x80, 0]);
    bench
}
