//! What the command says about itself.

pub const TEXT: &str = "\
vahmizar: compile tinydns data and ask compiled records

  vahmizar compile DATA... -o OUT [--serial N]
  vahmizar compile DATA OUT [--serial N]
      Compiles the sources DATA and replaces OUT by their records, all at once.
      If anything is wrong, OUT stays as it was; without -o also if it looks
      like a source.
  vahmizar check DATA... [--serial N]
      Judges each DATA and says how many bytes its records take, and how many
      they take joined. Writes nothing.
  vahmizar ask RECORDS NAME TYPE [--client ADDRESS] [--at WHEN]
      Says how the question ends, then prints the records, one a line:
      owner, lifetime in seconds, type, data.
  vahmizar time WHEN...
      Prints each WHEN on a line: as the 16 hex digits of a time field, and as
      a date in UTC, or in seconds of Unix time if its year hasn't four digits.
  vahmizar help
      Prints this page, as --help and -h do.

  DATA      a source. Several are joined, in the order given: one that doesn't
            end in a line end gets one, so that its last line doesn't run on
            into the next source. All together have at most 1,048,576 bytes
  OUT       the file to write; --output OUT and --output=OUT mean -o OUT
  RECORDS   the records of a source, as compile writes them into OUT
  N         serial number of SOA records without their own, 0 to 4294967295;
            without --serial the modification time of DATA, of several the
            latest, modulo 2^32, or 1 where that is 0
  NAME      a domain name; \\. is a dot in a label, \\065 the byte 65
  TYPE      A, NS, CNAME, SOA, PTR, MX, TXT, AAAA, SRV and others by name,
            0 to 65535 or TYPE65 by number, ANY for all
  ADDRESS   the client that asks, as 192.0.2.1 or 2001:db8::1;
            without --client 127.0.0.1
  WHEN      now (as without --at); a date in UTC as 2026-11-17,
            2026-11-17T03:00 or 2026-11-17T03:00:00, with or without Z and
            with T or a space; seconds of Unix time; or 16 hex digits of a
            TAI64 time with or without @ in front. Leap seconds aren't counted:
            a TAI64 time is 2^62 + 10 and the seconds of Unix time

Options may stand anywhere behind the command's name; -- ends them. A refused
source is reported as
    data:12:2: refused 6: address or prefix
with line 12 and field 2 of this file, and the field's text on the line below.
Each DATA is judged by itself, so one call finds the first fault of every one.

Exit status, and what the first line of ask says behind NAME and TYPE:
  0  done; ask: 2 records
     They follow.
  1  refused: a source, the records or the question
  2  wrong usage, or a file that can't be read or written
  3  ask: referral to the name servers of ZONE
     ZONE holds the name and is handed on to others, as & lines do it. Its NS
     records follow.
  4  ask: no records of this type, but the name has others
  5  ask: no such name in our zone ZONE
     ZONE holds the name, but it has no records.
  6  ask: not ours: no zone of these records holds this name
     No . or & line stands at the name or above it, or none that this client
     sees at that moment. (A zone of ours has NS and SOA records, as . lines
     make them.)
";
