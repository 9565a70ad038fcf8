//! The help of each subcommand.

pub const ALL: &str = "\
avr - try a setting sheet of the voltage regulator on the desk

usage: avr sheet check FILE [-o SHEET]
       avr sheet show SHEET
       avr sheet template [-o FILE] [--module 5]
       avr sheet diff A B
       avr scenario write FILE -o RECORDING [--sheet FILE]
       avr scenario show RECORDING
       avr run --sheet FILE (--scenario FILE | --recording FILE) [--table FILE] [--svg FILE] [more]
       avr ahead --sheet FILE (--scenario FILE | --recording FILE) --at TIME [--automatic] [--horizon TIME] [--svg FILE] [more]

  sheet check     say whether a sheet in text is taken, and why not; write the binary SHEET
  sheet show      turn a SHEET back into text
  sheet template  print a sheet to begin with: every setting, its default, what it takes and what it means
  sheet diff      tell the settings in which two sheets differ
  scenario write  turn a CSV scenario into a binary RECORDING
  scenario show   turn a RECORDING back into CSV
  run             run the unit: a table of what changed, and a picture
  ahead           look ahead from a time: when would the first command begin if nothing changed, and if none, why

`avr SUBCOMMAND --help` says more, and docs/MANUAL.md what the settings do. `-` in place of a file is standard input or output.
A run has at most 100000 s, 20000000 ticks; of a sheet at most 1 MiB is read, of a scenario 256 MiB.

Exit status: 0 done, 1 a file is bad or a sheet is refused, 2 the command line is wrong. On an error no file is changed: names are
looked at before a run, and files are written in place when all is made and printed. Only a RECORDING is written as it is made: if
its disk fills up, one that stood there is lost, which the message says, and one that is broken off is refused afterwards.
";

pub const SHEET: &str = "\
usage: avr sheet check FILE [-o SHEET]
       avr sheet show SHEET
       avr sheet template [-o FILE] [--module 5]
       avr sheet diff A B
";

pub const SHEET_CHECK: &str = "\
usage: avr sheet check FILE [-o SHEET]

Says whether the unit takes the sheet in FILE, and if not, why: name, value, range and step or what else it must be, and the
refusal's number and slot.
A line `advice` tells of settings that are taken and hardly meant so: what is odd, what the unit will do, and what to do. It is
no refusal, and the exit status is 0.
With -o, --output: writes the binary SHEET, a number of 32 bits for each setting, least byte first.

FILE is text: `name = value` a line, `#` begins a comment. The names are those of the maker's table of settings; one that is
left out has its default. Values are in V, A, ohm and s, or words:

    XB1 = on            # in service
    XB2 = continuous    # for a drive without a switching contact; impulse is for one with it
    I_nom = 5 A         # the module
    U_supp1 = 100.5 V   # or 100.5
    XB4 = RX            # off, U_comp, or RX: along R_set and X_set
    Inom_ct1 = 2000 A   # with U_comp: the current transformer's primary rating, and Inom_bus1 the breaker's; or 2000, 2 kA
    R_set = 4.5 ohm     # or 4.5, 4500 mohm, 4.5 Ω; up to 80 ohm with I_nom = 5 A, up to 400 ohm with 1 A
    T1 = 120 s          # or 120, 120000 ms, 24000 ticks
    XB6 = sensor        # off, BCD, sensor; with XB2 = impulse also counted, counted-reversed
    N1 = empty          # or a sliding tap
    T2 = raw 12000      # the slot's number as it is in the SHEET

`avr sheet template` lists all settings. FILE may also be a SHEET.
";

pub const SHEET_SHOW: &str = "\
usage: avr sheet show SHEET

Prints a binary SHEET as text, all settings with what they mean. A SHEET that the unit refuses is told as `sheet check` does.
";

pub const SHEET_TEMPLATE: &str = "\
usage: avr sheet template [-o FILE] [--module 5]

Prints a sheet in text to begin with: every setting with its default, what it takes and what it means. Keep the lines that you
change; `avr sheet check` judges the sheet.

  -o, --output FILE  write it there, and not on standard output
  --module 1 or 5    the module, by its rated current in A: the ranges and defaults of I_set1 to I_set3, R_set and X_set go by
                     it (1)
";

pub const SHEET_DIFF: &str = "\
usage: avr sheet diff A B

Tells the settings in which two sheets differ, each a text or a SHEET: a line for each setting, with its value in A, its value
in B and what it means, and at last how many there are. What a text leaves out has its default.
";

pub const SCENARIO: &str = "\
usage: avr scenario write FILE -o RECORDING [--sheet FILE]
       avr scenario show RECORDING
";

pub const SCENARIO_WRITE: &str = "\
usage: avr scenario write FILE -o RECORDING [--sheet FILE]

Writes the scenario in FILE as a binary RECORDING: for each tick of 5 ms its readings, its contacts, the BCD and the sensor
byte. A scenario with a simulated drive answers the unit, so it needs the sheet of the unit, --sheet.

FILE is CSV. The first row names the columns, the first of them `seconds` or `ticks`. A row stands from its time on until the
next row; an empty cell leaves what stood. The first row is at 0, the last one is a time and the word `end`. `#` begins a
comment line. A column that is not there is 0.

    seconds,U_AB,I_bus,breaker,automatic,drive,drive_run
    0,100,2.5,closed,on,ok,4
    10,97.5
    60,97.5 held
    70,invalid
    90,end

  readings        U_AB 3U0 U2 (V), I_high I_bus I_coupler (A): `98.2`, `98.2 held`, `invalid`. The unit counts the nearest
                  mV or mA, a half going up. A reading is missing if it is invalid, no number (nan, inf), below 0, or above
                  200 V or 40 times I_nom: 40 A with I_nom = 1 A, 200 A with 5 A. Table, picture and summary tell which.
                  `bits 0x7fc00000` is a float by its bits, as `scenario show` has one that is no number.
  pairs           U_AB_re U_AB_im (V), I_bus_re I_bus_im I_coupler_re I_coupler_im (A): real and imaginary part, for XB4 = RX;
                  as readings, and also below 0, as far: `-0.4`. In place of two parts U_AB_phasor, I_bus_phasor or
                  I_coupler_phasor, magnitude and degrees: `0.8@-30`, `0.8@-30 held`, `invalid`. A current at -30 lags a U_AB
                  at 0 by 30.
  contacts        breaker switching supply_off oil_cold oil_low oil_high end_up end_down ext_overcurrent ext_block
                  ext_raise_block ext_lower_block reset out automatic local U_supp2 U_supp3 U_supp4 raise lower remote
                  remote_raise remote_lower: 1 or 0, on or off, closed or open. In manual mode the panel's raise and lower act
                  while `remote` is off, local mode, and the dispatcher's remote_raise and remote_lower while it is on, remote
                  mode; `local` is another key, of local drive: the drive is worked at its own place. A press of the pair that
                  acts, made while the drive runs, is remembered, the latest one, and carried out at rest unless it is blocked
                  then. A fault, automatic, local drive, out and a change between local and remote mode drop it. A button that
                  is held as the mode changes is no press. `bit24` to `bit31` are contacts that the unit ignores.
  BCD             the tap on the lines, `24`, up to 79, or the lines themselves, `0x1a`
  sensor          0 to 255
  drive           the simulated drive: ok, does-not-start, runs-on (a move does not end), self-raise, self-lower (closes once
                  by itself). It gives the switching contact, and BCD, sensor, end_up and end_down where these have no column.
  drive_start     seconds from a command to the contact (0.5)
  drive_run       seconds the contact stays closed, after which the tap is there (3)
  drive_tap       the tap at the start (the sheet's N_pos)
  drive_lowest    and drive_highest, the taps at its ends (the sheet's N_L and N_R). There it does not start a move further, nor
                  goes on. It closes end_up at the end that a raise comes to, end_down at the other. A drive_tap outside its ends
                  is one. These three stand in the first row only.
  drive_step      volts that one raise adds to U_AB, which is the voltage at drive_tap (1.5); to the pair's magnitude, too. A
                  raise goes to the next tap, with XB6 = counted-reversed to the one before.
  drive_sliding   taps from which the drive goes on by itself, `9 10`, or none (none)

With XB2 = continuous in the sheet the drive has no switching contact, which stays open. It moves while its command is on: it
begins drive_start after the command, and is one tap further after each drive_run. When the command goes off it stops, and gives
up a tap that is not done. Of such a drive

  does-not-start  hears no command, so that an automatic one ends as 'long'
  runs-on         does not stop with its command, nor for the other one; only its supply or its end stops it
  self-raise      and self-lower take one tap by themselves; no fault tells of it
  drive_sliding   are taps at which it does not stop, but goes on to the next

The drive's supply goes off 0.1 s after the unit's supply trip, and is on again with `reset`. It is off, too, while `supply_off` is
on. That ends a move.
";

pub const SCENARIO_SHOW: &str = "\
usage: avr scenario show RECORDING

Prints a binary RECORDING as a CSV scenario, a row where something changes; pairs by their parts, where they are other than 0.
The number of an Invalid reading is not kept. A RECORDING is read twice, so that one on standard input is held in memory.
";

pub const RUN: &str = "\
usage: avr run --sheet FILE (--scenario FILE | --recording FILE) [--table FILE] [--format FORM] [--only SIDE]
               [--svg FILE] [--title TEXT] [--from TIME] [--to TIME]

Runs the unit with the sheet (text or SHEET) over a scenario (CSV) or a RECORDING.

  --table FILE    write the table of what changed there, and not on standard output
  --format FORM   the table as text, for people; as csv, a row for each change; or as json, with the summary (text)
  --only SIDE     tell inputs alone, or outputs with what the unit remembers, or all (all)
  --svg FILE      write the picture there
  --title TEXT    the picture's title; else the name of the scenario's file
  --from TIME     table and picture begin there, the table with what stands then, at the times when it began; the unit is run
                  from the beginning all the same (0)
  --to TIME       and end there (the end)

A time is in seconds, `12.5` or `12.5 s`, or in ticks, `2500 ticks`.

Tick n is told at n times 0.005 s. What a row brings at 10 s is seen first on the tick after, at 10.005 s; a delay of 20 s that
begins there ends at 30 s. Readings of a recording are not told in the table, but for those that are missing to the unit.

In the table `in` is what a tick brings, `out` what the unit gives out, and `unit` what it remembers: a press made while the drive
runs. When that press is gone, its command on the same tick says that it was carried out; without one it was dropped.

The summary is of the whole run: commands, operations, the time out of band, each block, trip and fault with its time, and the
readings that were missing and why. The text ends with it and the JSON has it; where standard output has neither, it is on standard
error.

The table tells pairs by their parts, the picture by their magnitudes, |U_AB|, and by the degrees that a current is ahead of U_AB.
A remark on standard error says where the sheet looks at something that no column gives, or is out of service.
";

pub const AHEAD: &str = "\
usage: avr ahead --sheet FILE (--scenario FILE | --recording FILE) --at TIME [--automatic] [--horizon TIME]
                 [--svg FILE] [--title TEXT] [--from TIME] [--to TIME]

Looks ahead from a time of a scenario (CSV) or a RECORDING: it is now TIME, and if what the unit reads now stayed as it is, when
would the first command begin, and which way?

The unit is run up to and including the tick at TIME. What that tick brings is taken to repeat: readings, contacts and buttons, the
tap and the drive's contact too. Tick 1 of the look is the tick after it. The answer is on standard output: the way of the command,
its tick, how much later that is, at which time of the scenario, whether it is automatic, by which delay, or manual. Where no command
begins within the horizon, it says what keeps it from beginning, the decisive reason first.

  --at TIME       from when; what a row brings at TIME itself is seen first on the tick after, so ask 0.005 s later for that
  --automatic     as if automatic were switched on at TIME, and all else stayed as it is
  --horizon TIME  how far to look, from 0.005 to 180 s, 1 to 36000 ticks (180 s)
  --svg FILE      write the picture of the run up to TIME and of the look there, with a mark where the command begins
  --title TEXT    the picture's title; else the name of the scenario's file
  --from TIME     the picture begins there (0)
  --to TIME       and ends there (shortly after the command, or at the horizon)

A time is in seconds, `12.5` or `12.5 s`, or in ticks, `2500 ticks`.

The look reports the first command only: the drive does not answer in it, so what would follow the command is not known. The answer
is that of the proved library. The exit status is 0 with a command and without one.
";
