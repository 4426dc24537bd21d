"""Lines of docs/BELIEVE.md: for files and definitions whose own comment says too little alone, or
speaks of what is not on the page, and for the words of the toolchain's library.

checks/proofs/believe.py uses these lines. It fails if one is missing or of no use."""
from __future__ import annotations

# by file, from crates/ on
HEADS = {
    'mcs_team/specs/Headline.antt': (
        'The headline: for every accepted system, every horizon and every number of workers, the '
        "schedule and the reports are those of one clock that takes all cores' turns singly. At each "
        "time every context's refills, with the ticks in use counted, sum to its budget and do not "
        'overlap.\n\n'
        'One clock takes turns by time, then core, and signals in order of making (`schedule`). The '
        'premises:\n'
        '- The system is accepted, that is, it is well formed (`System` holds no other).\n'
        '- The horizon is at most 2^40, which is a condition of the calls.\n'
        '- The call has returned, and with success.\n\n'
        'Calls that start threads do not promise to return. Tests, and no clause, say that a call '
        'fails only if memory runs out or, when rows go to a sink, if the sink refuses one.'
    ),
    'mcs_ticks/specs/Queue.antt': (
        'Queues of threads with their priorities: the ready threads of a core, and the waiters of a '
        'notification.'
    ),
}

# by file and name
SAYS = {
    'mcs_histogram/specs/stored/Fields.antt': {
        'AreFields': 'the fields of a histogram: a bucket for each value up to the limit, and the count is the sum of the buckets',
    },
    'mcs_chain/specs/Answers.antt': {
        'interrupts': "the number of interrupts of the chain's source",
        'gone_after': 'how far each thread is after these rows',
        'origins': 'the sets of origins after these rows',
        'slow': 'the finding of a row that follows these rows: the earliest origin that it answers too late',
        'unanswered_for': 'the finding at the horizon for this origin without an answer, if its deadline has passed',
        'unanswered': 'the finding at the horizon: the earliest origin without an answer, if its deadline has passed',
    },
    'mcs_origins/src/set.rt': {
        'Marks': 'the origins of a set: none, one stretch, or a list of stretches',
    },
    'mcs_origins/specs/stored/Stretches.antt': {
        'all_of': 'the origins of a stretch, the latest first',
        'marks_of': 'the list of the origins of a set',
    },
    'mcs_chain/specs/Moves.antt': {
        'free': "the place of a thread's free set",
        'all_bits': 'the places that are bits of a word',
        'taking': 'how a thread takes what the wait at this step gives it',
        'gives': 'the effect of a signal, which leaves this core if its notification is at home on another one',
        'moves': 'the effect of a row on the sets of origins, if the threads are as far as given',
        'moves_by': 'the effect of a row, by its event',
    },
    'mcs_chain/specs/Steps.antt': {
        'is_given': 'the thread has gone through a wait that gave this word, which begins the round if it is the first',
        'goes_by': 'how far a thread is after this row of it',
        'one_goes': 'how far all threads are after a row, if it is a row of this thread',
        'all_go': 'how far all threads are after a row',
        'all_fresh': 'all threads are at the beginning of a round',
        'gone_of': 'how far this thread is',
        'behind': 'the step after this item',
        'next_step': 'the first of these items that posts or takes and that the round does not pass over; it begins at this step',
        'step_of': "the step of the thread's next row that posts or takes. If no step is left for the word, the thread is at its first wait again",
    },
    'mcs_chain/specs/Figures.antt': {
        'tally_with': 'the tally of this number of interrupts, and of these latencies',
        'tally_of': 'the tally of a chain after these rows',
        'Tally': 'what a tally keeps: the number of interrupts, and figures of the latencies',
        'figures_of': 'the figures of a chain after these rows',
        'tallies_of': 'the tallies of all chains after these rows',
        'all_figures': 'the figures of all chains, in the order of the file',
        'figures_with': 'the figures of a chain with this deadline, this number of interrupts and these latencies',
    },
    'mcs_origins/specs/Sets.antt': {
        'join_first': 'an origin joins a set; `rest` joins what follows it',
    },
    'mcs_chain/specs/Origins.antt': {
        'Origins': "a chain's origins without an answer, by who has them",
        'no_origins': 'the sets before the first row',
        'sent': 'an origin that a signal of this core and moment carries',
        'sets_out': 'a signal to another core carries these origins',
        'lands': 'the signal that this core made at this moment arrives, and posts its origins',
        'holds': 'the notification holds the origins that were posted',
        'gets': 'a thread takes the origins that the notification held',
        'moved': 'the sets after a row with this effect',
    },
    'mcs_chain/specs/Watch.antt': {
        'judged_many': 'the judged answers of a chain in all rows so far, at most 2^64 - 1',
        'judged_sum': 'the judged answers of a chain in all rows so far',
        'Watch': 'what a watch of all chains keeps: how far each thread is, and something of each chain',
        'One': 'what is kept of a chain',
        'due_of_one': 'the slow answers of a chain that are due',
        'watch_of': 'what a watch keeps after these rows',
        'slow_sum': 'the number of slow answers of a chain in these rows',
        'slow_many': 'the same, at most 2^64 - 1',
    },
    'mcs_ticks/specs/Queue.antt': {
        'in_one_list': 'what the clock uses: one list in order of entering, whose best is the first of maximum priority',
    },
    'mcs_control/specs/Context.antt': {
        'budget_charged': 'a charge of k ticks, by kind',
        'budget_unblocked': 'unblocking at t moves dates; a slice does not change',
        'woken_by': 'a wake at t unblocks only in mode sporadic',
        'chosen_by': 'a choice at t unblocks only in mode bandwidth',
        'budget_ordered': 'an order at t sets this configuration',
        'budget_ready': 'a budget is ready once its first date has come; a slice always is',
        'amount_of': 'the amount of the head, or the rest of the slice',
        'Context': 'a scheduling context: its configuration, its mode, and the budget that is left',
    },
    'mcs_script/specs/Script.antt': {
        'is_left_open': 'whether the item with this number is an `Enter` that is last or directly before a handler',
        'first_to_look_at': 'the first of several items may be such a wait',
        'AreNotBare': 'no other item before the n-th is such a wait',
        'passes_after': 'whether a thread skips what follows this item: at the start of a handler its badges decide',
    },
    'mcs_notify/specs/Note.antt': {
        'Note': 'a notification: its word, and its waiters in the order in which they began to wait',
        'posted_by': 'a post wakes the first waiter of maximum priority, or ORs the badge into the word',
    },
    'mcs_system/specs/Names.antt': {
        'is_name_byte': 'A-Z a-z 0-9 _ -',
    },
    'mcs_system/specs/WellFormed.antt': {
        'IsWellFormed': 'a well-formed system',
        'IsThread': 'a thread is bound to an existing context, with numbers in range and a valid script',
    },
    'mcs_core/specs/Orders.antt': {
        'by_moment': 'orders by moment, and in file order within one moment',
    },
    'mcs_core/specs/Core.antt': {
        'Core': 'the state of a core; parts of other cores keep their places in the lists',
        'no_state': 'past the end of the threads; never reached',
        'opening_releases': 'the initial release queue: the threads of core c in file order, each with its start',
        'opening_contexts': 'each context of core c has its whole budget from the start of its thread on',
    },
    'mcs_core/specs/Alarms.antt': {
        'is_at_home': 'whether the source of these dates posts on a notification of core c',
        'alarms_of': 'the initial alarms of core c, in file order',
        'past': 'the alarms after moment t: those that rang have their next dates',
        'alarm_of': 'the initial alarm of a beat: `left` dates come after the first, without end if `count` is 0',
    },
    'mcs_core/specs/Turn.antt': {
        'says': 'a part with one row',
        'stops_to_front': 'at the front of the ready queue; its context has been charged already',
        'round_row': 'the row of a job that ends now: its number and its response time',
        'waits_as': 'a wait takes the word and the thread moves on, or the thread joins the waiters',
        'posts_as': 'a post wakes a thread, or the notification holds the badge',
        'after_move': 'the thread ends after its last item, or else this follows',
        'after_item': 'what follows an item: the thread continues, ends, blocks or yields',
        'tick_of': 'part 1 of a turn: the end of the tick; the running thread has used one tick more',
        'orders_running': 'part 3: if the thread of the context runs, it is charged by the old configuration and stops',
        'preempts_by': 'part 5: a running thread is charged and preempted by one of higher priority',
        'chooses_of': 'if no thread runs, the best ready thread is chosen',
        'frees': 'a thread leaves a server, with its row',
        'turn_with': 'the whole turn of core c at moment t, with the mail that arrives',
        'round_begun': 'a wait gives this word at t. If it is the first item, the round begins, and has the word',
        'leaves': 'the running thread, already charged k ticks, leaves the core and enters a queue by `enters`',
        'after_count': 'after the count: an item with no tick left is finished; else an exhausted head may stop the thread',
        '◌followed_by◌': 'one part, and then another, which begins with the core that the first one leaves',
    },
    'mcs_core/specs/Clock.antt': {
        'turn_at_with': 'the turn of core c at moment t, with the signals that arrive there',
        'takes_moment_with': 'all cores take their turns at moment t, from core 0 on',
        'clock': 'the clock with the ready threads in one list',
        'schedule': 'the schedule: all rows of the moments 0 to the horizon',
    },
    'mcs_laws/specs/Histories.antt': {
        'home_before': 'the core of a context before moment t',
        'context_before': 'the context before moment t',
    },
    'mcs_laws/specs/Slices.antt': {
        'charge_in': 'the charge of the context in a row of a schedule, if the row lies in these moments',
    },
    'mcs_report/specs/Reports.antt': {
        'wait_in': 'how long the thread waits after this row, if its head is exhausted, up to the horizon',
        'wait_until': 'ticks from this time until the date for which a thread waits, at most until the horizon',
    },
    'mcs_ticks/specs/Given.antt': {
        'Given': 'the sink took all of these rows, in order',
    },
    'mcs_script/specs/Raw.antt': {
        'Raw': 'an item as it is written: with the names of notifications and servers, not their numbers',
        'is_empty': 'whether a text has no byte',
        'is_numeral': 'whether a text is a numeral: decimal digits, the first of them not 0',
        'value_of': 'the number that decimal digits say',
        'compute_of': 'what follows the word compute: ticks, 1 to 2^40',
        'signal_of': 'what follows the word signal: a name, and a badge from 1 to 2^32 - 1',
        'wait_of': 'what follows the word wait: a name',
        'yield_of': 'what follows the word yield: nothing',
        'on_of': 'what follows the word on: the badges of the handler, a number from 1 to 2^32 - 1',
        'call_of': 'what follows the word call: the name of a server, and a badge from 1 to 2^32 - 1',
        'spin_of': 'what follows the word spin: nothing',
        'is_text': 'whether both texts are the same',
        'item_of': 'the item of these parts: the first is its word',
        'new_item_of': 'the item of these parts, with the words on, call and spin, which version 3 adds',
        'read_as': 'the item that a text says in a file of version 1 or 2, or what is wrong with it',
        'read_new_as': 'the item that a text says in a file of version 3, or what is wrong with it',
    },
    'mcs_load/specs/Keys.antt': {
        'key_name': 'the name of a key in a file',
    },
    'mcs_load/specs/Checks.antt': {
        'answer': 'the system that was read, or the fault of the first test that fails',
    },
    'mcs_load/specs/Memory.antt': {
        'no_memory': 'the fault of a load for which there was no memory',
    },
    'mcs_load/specs/Words.antt': {
        'must_at': 'a test of a key of a row',
        'has_only': 'whether a table has no other keys than these',
        'only_keys': 'the test that a table has no other keys than these',
        'is_in_range': 'whether an integer lies in this range',
        'number_or': 'the number, or its default if there is no number',
        'number': 'the tests of a whole number: it is an integer, and lies in its range',
        'whole_number': 'the tests of a whole number that must be there',
        'number_with_default': 'the tests of a whole number that has a default',
        'bytes_or_none': 'the bytes of a text, or none if there is no text',
        'text': 'the tests of a text: it is there, and it is a text',
        'is_among': 'whether a name is among others',
        'items_or_none': 'the values of an array, or none if there is no array',
        'item_count': 'how many values an array has',
        'array_at': 'the place of a whole section',
        'rows': 'the tests of an array of tables: it is an array, of at most 4,096 values',
        'members_or_none': 'the keys of a table, or none if there is no table',
        'row_table': 'the test that a row is a table',
        'each': 'each value of an array in order, read by a step that may name what was read before it',
        'each_from': 'each value of an array in order, read by a step that continues what was read before it',
        'row': 'a row is a table, and is read as such a part',
    },
    'mcs_load/specs/Dates.antt': {
        'least_after': 'the minimum of the next number: one more than the last of these, or 0 if there is none',
        'items_or_zero': 'the values of `at`, or 0 alone if it is absent',
        'few_offsets': 'the test of how many numbers `at` has: at most 1,024, and at most 4,096 with those of the sources before',
        'at_values': 'the tests of the array `at`: it is an array, and has a value',
        'read_values': 'the tests of the values of `at`: they are not too many, and each is an integer, above the one before and below the period',
    },
    'mcs_load/specs/Script.antt': {
        'said': 'the item that a text says, if it says one',
        'place_or_first': 'the place that was found, or 0',
        'core_of': 'the core of a notification',
        'server_at': 'the server with this number',
        'no_items_yet': 'a script before its first item is read',
        'hears': 'the test that the item may stand there',
        'note_names': 'the names of the notifications',
        'server_names': "the names of the servers that may be called: all of the file, or in a server's script the servers before it",
        'named': "an item with numbers for its names: what it names is there, and a wait and a call name something on the script's own core",
        'read_item': 'the tests of an item: it is a text, it says an item, and what it names is there',
        'first_step': 'the first step of an item: the item itself, or for a call the step that enters the server',
        'steps_of': 'all steps of an item: the item itself, or those that a call becomes',
        'with_item': 'what is read of a script, with one more item',
        'heard_item': 'the tests of the next item: that it is one, and that it may stand there',
        'next_item': 'the tests of the next item; the last one is that all steps so far are at most 1,024',
        'no_bare_wait': 'the test that there is no such wait; it fails at the item with this number',
        'texts': 'the tests of the array of a script: it is there, it is an array, of 1 to 1,024 values',
        'body': 'the tests of the array of a script and of each item',
        'script': "the tests of a thread's script, and its steps: the array, each item, and then that no wait, other than the first of several items, stands last or directly before a handler",
        'server_script': "the tests of a server's script, and its steps: the array and each item",
    },
    'mcs_load/specs/Walk.antt': {
        'key_of': 'the key of what SchedControl refuses',
        'accepts': 'the test that SchedControl accepts the configuration',
        'config': 'the numbers of a configuration: budget, period and extra refills',
        'takes_mode': 'the test that a context of this kind may have the mode',
        'context_keys': 'the keys of a context in a file of version 1',
        'listed_context_keys': 'the keys of a context: in versions 2 and 3 also its mode',
        'context': 'the tests of a context: its keys, name, core, configuration and mode',
        'listed_note_keys': 'the keys of a notification: in version 3 also its first word',
        'note': 'the tests of a notification: its keys, name, core and first word',
        'is_two_or_three': 'whether the integer is there, and is 2 or 3',
        'is_three': 'whether the integer is there, and is 3',
        'notes': 'all notifications of a file',
        'server': 'the tests of a server: its keys, name, core, priority and script. No notification and no earlier server has its name',
        'servers': 'all servers of a file, at most 4,096 with its notifications',
        'free_server': 'a server as a notification: one that holds the word 1 while no thread is in it',
        'known': 'the place of this name among those that are known, and the test that it is one of them',
        'part_at': 'the context with this number',
        'times': 'the start, the rounds and the deadline of a thread',
        'thread': "the tests of a thread: its keys, name, context, priority, times and script. Its core is its context's",
        'is_same_kind': 'whether both kinds are the same',
        'order': 'the tests of an order: its keys, moment, context, configuration, and that the kind stays. Two orders may name one context',
        'link': 'the tests of a link: it goes to another core, and no earlier row goes from the same to the same',
        'source': 'the tests of a source: its keys, name, notification, badge and dates',
        'script_of': 'the steps of the thread with this number',
        'waits': "the test that a chain's thread has a wait among its steps",
        'waits_first': "the test that a chain's thread begins with a wait if the chain asks for badges",
        'chain': 'the tests of a chain: its keys, name, source, thread, badges and deadline, and then these two',
        'top': 'the place of the numbers at the top',
        'top_keys': 'the keys at the top of a file of version 1',
        'listed_keys': 'the keys at the top of a file: in versions 2 and 3 also links, and in version 3 also chains, sources and servers',
        'numbers': 'the tests of the numbers at the top: version, cores, delay, call and least budget',
        'base': 'the first tests of a table, in order: the numbers at the top, links, contexts, notifications and servers',
        'others': 'the other tests of a table, in order: threads, sources, orders and chains',
        'walk': 'all tests of a table, in order, and the system that it describes',
        'document': 'the test that the bytes are TOML',
    },
    'mcs_text/specs/Text.antt': {
        'why_word': 'the word of a stop',
        'until_words': 'the words of the date until which a thread waits, if there is one',
        'note_name': 'the name of a notification or a server',
        'words_of': 'the words of a row, behind its moment and its core',
        'schedule_text': 'the lines of all rows',
    },
    'mcs_cli/specs/Run.antt': {
        'IsRun': 'the effect of a run: it writes all output for the bytes that it read, or fails with a fault that says why',
    },
    'mcs_verdict/specs/Findings.antt': {
        'found_at': 'the finding of a row, if it has one, with its moment and its core',
    },
    'mcs_verdict/specs/Words.antt': {
        'no_word': 'a word that nothing has set',
        'lost': 'the finding of a signal that found no waiter: it is lost if it left the word unchanged',
        'merges': 'whether a row reports a signal that is coalesced',
        'heard_at': 'the badges that, in a word of the notification, leave something to do to a thread that waits first for it; `None` if every word does',
        'firsts_of': 'the words that the notifications hold at first',
    },
    'mcs_verdict/specs/Misses.antt': {
        'is_reached': 'whether a number of ticks reaches the deadline; the deadline 0 means none',
        'miss': "the finding of a `round` row: a miss, if the response from the job's activation exceeds the thread's deadline",
        'first_word': "the word for which the thread's script waits first",
        'overdue': 'what is found at the horizon of the job that is under way, or of an activated one that has not begun',
        'never': 'what is found at the horizon of a thread that was never activated',
        'first_of': 'the first of two findings, if there is one',
    },
    'mcs_verdict/specs/Jobs.antt': {
        'preemptions_of': "the number of preemptions of a thread's current job, or 0 without one",
    },
    'mcs_verdict/specs/Calls.antt': {
        'waited_on': 'the notification on which an item waits, if it is a wait',
        'bits_of': "the badges that, in a word of the thread's first wait, leave something to do; `None` if every word does",
    },
    'mcs_verdict/specs/Rounds.antt': {
        'begun_of': "when the thread's current job began, if there is one",
        'called_of': "when the thread's latest job that a word began was activated, if there was one",
        'activated_of': "when the thread's current job was activated, if there is one",
        'begun_by_word': "when a thread's job began, after it was given this word",
        'rounds_of': "the number of the thread's latest job that ended, or 0 if none did",
    },
    'mcs_verdict/specs/Parts.antt': {
        'free': "when the thread's latest job ended, or else when it starts",
        'free_of': 'when a thread of the system is free for its next job',
    },
    'mcs_verdict/specs/Takers.antt': {
        'waits_on': 'an item waits on the notification',
        'due_by': 'the maximum deadline of these threads, if a word that any of them takes begins a job with one',
        'greatest': 'the maximum deadline of these threads',
    },
    'mcs_verdict/specs/Stood.antt': {
        'no_ticks': 'no tick in any standing',
    },
    'mcs_hints/specs/Notes.antt': {
        'waits_on': 'an item waits on the notification',
        'signals': 'an item signals the notification',
        'unsignalled': 'the hint of a notification that a script waits on, and that neither a script nor a source signals',
        'interrupts': 'whether a source posts on the notification',
    },
    'mcs_hints/specs/Chains.antt': {
        'unreached_by': 'the hint of a chain that no signal can complete',
    },
    'mcs_hints/specs/Contexts.antt': {
        'unbound': 'the hint of a context without a thread',
        'share': "what a configuration grants of its core's time, in millionths",
        'part_where': 'the exact utilisation of a context, if it has a thread and is sporadic',
    },
    'mcs_hints/specs/Cores.antt': {
        'unused': 'the hint of a core without a thread',
        'overcommitted': 'the hint of a core that grants more than all of its time',
        'parts_of': "the parts of its time that a core's contexts with threads are granted",
    },
    'mcs_check_lines/specs/Told.antt': {
        'is_overdue': 'whether a finding is that a round is overdue',
        'is_never': 'whether a finding is that a thread was never activated',
        'is_lost': 'whether a finding is a lost signal',
    },
    'mcs_fields/specs/Fields.antt': {
        'below_text': 'a number below 0, with its sign',
        'Text': 'bytes',
        'members_of': 'the members of a JSON object with these fields',
    },
    'mcs_check_lines/specs/Names.antt': {
        'chain_name': 'the name of the chain with this number',
    },
    'mcs_check_lines/specs/Chains.antt': {
        'chain_words': 'the words of a finding of a chain, without its time and core',
        'chain_kind': 'the word for a finding of a chain',
        'latency_of': 'the latency of a slow answer',
        'chain_deadline': 'the deadline that has passed',
        'origin_of': 'the time of the interrupt',
        'chain_found_line': 'the line of a finding of a chain',
        'chain_found_lines': 'the lines of these findings of chains',
        'chain_fields': "the fields of a chain's figures, with its name",
        'chain_text': "the line of a chain's figures, in words",
        'chain_line': "the line of a chain's figures",
        'no_thread': "the columns of a thread's figures, each empty",
    },
    'mcs_check_lines/specs/Answers.antt': {
        'answer_words': 'the words of an answer, without its time and core',
        'answer_line': 'what is written of an interrupt and the job that answers it',
        'answer_lines': 'the same of several, one after another',
    },
    'mcs_check/specs/Check.antt': {
        'counts_of': 'the counts of threads and notifications, and those of chains',
    },
    'mcs_check_lines/specs/Lines.antt': {
        'chain_count_words': 'the words of the counts of chains, if the file has a chain',
    },
    'mcs_check_lines/specs/Fields.antt': {
        'checked_fields': 'the fields of the counts, with those of chains',
        'chain_count_fields': 'the fields of the counts of chains, if the file has a chain',
        'Fields': 'values, each with its name before it',
        'by_of': 'the names of the threads that may take an untaken word',
        'note_of': 'the notification of a lost signal',
        'word_of': 'the word that a lost signal left unchanged',
        'number_of': 'the number of a round that missed its deadline',
        'deadline_of': 'the deadline that was missed, or that a thread without a job has',
    },
    'mcs_check_lines/specs/Formats.antt': {
        'head_text': 'the first line of CSV',
        'found_line': 'the line of a finding',
        'job_line': 'the line of a round that ended',
        'no_columns': 'the columns of chains, each empty',
    },
    'mcs_check_words/specs/CommandLine.antt': {
        'question_texts': 'the texts of a question: of the thread and of the round',
    },
    'mcs_why_lines/specs/RowFields.antt': {
        'charged_of': 'the charge of a thread that stops',
        'until_of': 'the date of a thread that stops and enters the release queue',
        'maker_of': 'the core that made a signal which arrives',
        'response_of': 'the response of a round that ended',
        'of_note': 'the value, if the note is a notification and no server',
        'server_of': 'the server of a row, if it has one',
    },
    'mcs_why_lines/specs/Account.antt': {
        'span_fields': 'the fields of a job that `--why` explains',
        'span_text': 'the line of such a job in words',
        'span_line': 'the line of such a job, in words or as a JSON object',
        'told_ran': 'the line of how long a thread ran',
        'ran_line': 'the line of how long a thread ran; none if it did not run',
        'idle_line': 'the line of how long the core was idle',
    },
    'mcs_explain/specs/Why.antt': {
        'is_there': 'whether there is such a job or answer',
        'why_text': 'the text about the job or the answer',
        'answer_found': 'the result of a search for an answer',
    },
    'mcs_way/specs/Sought.antt': {
        'sought_by': 'the answer if there is one, or how many there are',
    },
    'mcs_way/specs/Trace.antt': {
        'Trace': 'an origin at a carrier: since when, at which places, and on which legs it came',
        'taken': 'an origin that a thread takes from a notification, if the wait gives it a place',
    },
    'mcs_way/specs/Course.antt': {
        'Course': 'an origin at all its carriers, and the way to its answer',
        'sets_out': 'a signal to another core leaves with what its thread has',
        'landed': 'the origin, if the signal that arrives has it',
        'lands': 'a signal of another core arrives, and is under way no more',
        'holds': 'a notification holds what is posted',
        'takes': 'a thread has what it takes',
        'gets': 'a thread has what it takes, and the notification holds nothing',
        'is_answer': 'whether a row ends the round that answers',
        'answers': 'the way is that of the thread, whose round ends',
    },
    'mcs_way/specs/Trail.antt': {
        'chain_part': 'the chain with this number',
        'aim_of': 'an answer, and the source of its chain',
        'course_of': 'the course of the origin of an answer, by the rows so far',
    },
    'mcs_way/specs/Sums.antt': {
        'held_in': 'the ticks of a leg at a notification; of others 0',
        'delay_in': 'the ticks of a leg between two cores; of others 0',
        'stood_in': 'how the thread of a leg stood; no ticks if the leg has no thread',
        'sums_of': 'the ticks of all legs, by what they were spent on',
    },
    'mcs_way_lines/specs/Lines.antt': {
        'Fields': 'names with values',
        'words_by': 'the words of a leg behind its time and core',
        'leg_object': 'a leg as a JSON object',
        'way_objects': 'the legs and the sums as JSON objects',
    },
    'mcs_why/specs/Running.antt': {
        'is_thread': 'whether it is this thread that runs',
        'is_nobody': 'whether no thread runs',
        'idle_in': 'the ticks of [from, to) in which no thread ran on the core',
    },
    'mcs_why/specs/Waits.antt': {
        'stopped': 'when the thread stopped last, by all rows',
        'waited_of': 'when the thread began to wait for the word that began its latest job, if it waited',
    },
    'mcs_why/specs/Spans.antt': {
        'span_if': 'the span of a job that ended, if it is the one that is sought',
        'or_later': 'the first span, or else the second',
        'sought_by': 'a job that ended, or else one that did not, or the number of jobs',
    },
    'mcs_table/specs/Figures.antt': {
        'figures_of': 'all figures of a thread in the table',
    },
    'mcs_table/specs/Signals.antt': {
        'is_note': 'whether it is this notification',
        'merged_note': 'the notification of a signal, if it is coalesced',
        'merged_by': 'the notification on which this row, after those before it, coalesces a signal',
    },
    'mcs_check_lines/specs/Figures.antt': {
        'merged_value': 'the number of coalesced signals, if the script begins with a wait',
        'thread_fields': "the fields of a thread's figures, with its name",
        'thread_text': "the line of a thread's figures in words",
        'context_text': 'the line of the budget that a context never used, in words',
        'thread_line': "the line of a thread's figures, in words, as a row of CSV or as a JSON object",
        'context_line': 'the line of the budget that a context never used; CSV leaves it out',
    },
    'mcs_server_laws/specs/Nesting.antt': {
        'inside': 'the servers that a script is in before this item, the last one first',
    },
    'mcs_server_laws/specs/Ceiling.antt': {
        'CallsWait': 'a `call` stop is of a thread at an `Enter` whose server another thread has, which is not ready',
    },
    'mcs_check_forever/specs/Verdict.antt': {
        'chain_findings': 'the number of findings of all chains, at most 2^64 - 1',
        'totals_of': 'the numbers of the last line',
        'findings': 'the findings of all sets and chains',
    },
    'mcs_ever_told/specs/Outlook.antt': {
        'NeverLoses': 'no schedule coalesces a signal of this notification',
        'NeverMisses': 'in no schedule this thread misses a deadline',
        'IsAlwaysInTime': 'in no schedule this thread misses a deadline or is overdue',
        'IsNeverUntaken': 'in no schedule a word of this notification is untaken',
        'endless': 'the round of a thread that never ends',
        'abandoned': 'the word of a notification that nobody ever takes',
        'open_lines': 'the lines of a set without a repetition up to the horizon',
    },
    'mcs_ever_found/specs/Period.antt': {
        'is_taken_in_period': 'whether a thread takes the word of the notification in the first period',
    },
    'mcs_ever_found/specs/laws/GoOn.antt': {
        'never_up_to': 'the finding that a thread is `never` at the horizon, if it is',
        'untaken_up_to': 'the untaken word of a notification at the horizon, if there is one',
    },
    'mcs_ever_found/specs/Course.antt': {
        'course_of': 'the course of all threads and notifications in the rows so far, the latest first',
    },
    'mcs_verdict/specs/Account.antt': {
        'stood_of': 'the ticks in each standing since a time, by the rows since then',
    },
    'mcs_verdict/specs/Later.antt': {
        'IsLaterAccount': 'an account is another one `by` ticks later, without its totals',
    },
    'mcs_ever_found/specs/Recurs.antt': {
        'watch_before': 'what is kept before moment t',
        'WordIsLater': 'the word of a notification was set `by` ticks later',
    },
    'mcs_verdict/specs/Watch.antt': {
        'Watch': 'what is kept of all threads and of all words',
    },
    'mcs_ever/specs/Later.antt': {
        'RoundKeepsUp': 'the thread runs further by as many ticks as the clock',
    },
    'mcs_hints/specs/Whole.antt': {
        'nothing_to_judge': 'the hint of a file without a thread, or without a deadline',
    },
    'mcs_check/specs/Judged.antt': {
        'scope_of': 'how much a check judges',
        'unjudged': 'the thread as an unjudged one, if it is',
    },
    'mcs_check_lines/specs/Deadlines.antt': {
        'chain_deadlines': 'how many chains have a deadline',
    },
    'mcs_ever_chain/specs/Told.antt': {
        'many_left': 'how many interrupts have no answer after these rows',
        'AreLeft': 'how many interrupts have no answer: before the first period, and in each period',
        'IsToldBy': 'each figure of a chain is right: for ever with a period, and up to the horizon without one',
    },
    'mcs_ever_chain_lines/specs/Lines.antt': {
        'words_by': 'the words of a chain, with a period or without one',
        'fields_by': 'the values of a chain, with a period or without one',
        'open_words': 'the words of a chain that was not found to recur up to this horizon',
        'open_fields': 'the values of a chain that was not found to recur up to this horizon',
        'left_line': 'the line of interrupts without an answer, or nothing',
        'has_left': 'whether interrupts without an answer have a line',
        'tells_left': 'the same, if slow answers have a line or not',
        'findings_of': 'how many lines of findings a chain has',
    },
    'mcs_check_lines/specs/Unjudged.antt': {
        'unjudged_line': 'the line of an unjudged thread, in each format',
        'unjudged_words': 'the words of an unjudged thread, without its time and core',
        'time_words': 'the deadline and the activation',
    },
}

# by file, the definitions whose names say enough: they have no comment on the page
PLAIN = {
    'mcs_chain/specs/Answers.antt': 'is_interrupt'.split(),
    'mcs_check_lines/specs/Deadlines.antt': 'has_chain_deadline'.split(),
    'mcs_check_lines/specs/Fields.antt': 'response_of'.split(),
    'mcs_check_lines/specs/Formats.antt': 'counts_line hint_line'.split(),
    'mcs_check_lines/specs/Told.antt': 'is_miss is_untaken'.split(),
    'mcs_explain/specs/Why.antt': 'is_csv'.split(),
    'mcs_check_forever/specs/Foretold.antt': 'is_rows'.split(),
    'mcs_way/specs/Sought.antt': 'is_of'.split(),
    'mcs_way_lines/specs/Lines.antt': 'leg_fields sum_fields'.split(),
    'mcs_ever_chain_lines/specs/Lines.antt': 'Fields chain_name chain_part chains_text deadline_value'.split(),
    'mcs_control/specs/Context.antt': (
        'context_charged context_chosen context_ready context_unblocked context_woken '
        'head_amount head_moment left_shown max_refills_of moment_of refills_shown'
    ).split(),
    'mcs_control/specs/Control.antt': 'IsModeOf'.split(),
    'mcs_control/specs/laws/Shown.antt': 'ShowsBudget ShowsBudgetOf'.split(),
    'mcs_core/specs/Alarms.antt': 'alarms_at has_come later_by ringing rings'.split(),
    'mcs_core/specs/Clock.antt': (
        'arrives_at core_at core_shown opening_world schedule_with world'
    ).split(),
    'mcs_core/specs/Contexts.antt': 'held'.split(),
    'mcs_core/specs/Core.antt': (
        'context_of note_of off opening_core opening_note stands thread_of with_context with_note '
        'with_thread'
    ).split(),
    'mcs_core/specs/Orders.antt': 'is_for_core is_of'.split(),
    'mcs_core/specs/Turn.antt': (
        'after_entered after_waited applied chooses given is_for_now item_of its_context move_of '
        'moves moves_on obeys part_of posts preempts queued silent stamped tick with_chosen_context '
        'with_its_context with_woken_context'
    ).split(),
    'mcs_ever/specs/Later.antt': (
        'IsSporadic later_budget later_context later_dated later_dates later_mail later_place '
        'later_thread'
    ).split(),
    'mcs_ever/specs/Recurs.antt': 'shift_of'.split(),
    'mcs_ever_told/specs/Fields.antt': 'Fields cores_field note_field thread_field'.split(),
    'mcs_ever_told/specs/Texts.antt': 'words_text'.split(),
    'mcs_laws/specs/Histories.antt': 'charges_told home_of is_order_for'.split(),
    'mcs_laws/specs/Slices.antt': 'charges_in'.split(),
    'mcs_load/specs/Script.antt': 'begins_handler'.split(),
    'mcs_load/specs/Walk.antt': (
        'chains contexts is_version_2_or_3 is_version_3 links orders sources threads'
    ).split(),
    'mcs_notify/specs/Note.antt': 'after_post after_wait posted quiet_note'.split(),
    'mcs_ever_told/specs/Lines.antt': (
        'abandoned_line abandoned_told count_lines end_line end_lines ever_line ever_lines ever_told '
        'inactive_told is_own_note losses_of misses_of of_notes so_far_told thread_lines thread_so_far '
        'threads_so_far untaken_line untaken_told'
    ).split(),
    'mcs_ever_told/specs/Outlook.antt': 'IsTrueOf course_up_to found_of lines_of told_abandoned told_ever'.split(),
    'mcs_refills/specs/Server.antt': (
        'charged_with_enough dates_of enough first_amount first_date first_moment head_amount '
        'is_ready last_date'
    ).split(),
    'mcs_refills/specs/laws/Apart.antt': 'IsBefore end_of last_end total_amount'.split(),
    'mcs_release/specs/Release.antt': 'is_due'.split(),
    'mcs_report/specs/Reports.antt': (
        'reports_of response_in responses run_lengths runs stops thread_report thread_reports '
        'waits'
    ).split(),
    'mcs_report/specs/Tally.antt': 'no_report'.split(),
    'mcs_script/specs/Script.antt': (
        'badges_in cost cost_at is_enter is_wait move_after next_of'
    ).split(),
    'mcs_server_laws/specs/Ceiling.antt': 'place_of priority_of script_of'.split(),
    'mcs_server_laws/specs/Exclusion.antt': 'home_of is_done word_of'.split(),
    'mcs_server_laws/specs/Interrupts.antt': (
        'ArePosted InterruptsArePosted dates_to is_interrupt_of'
    ).split(),
    'mcs_server_laws/specs/Nesting.antt': 'ScriptsNest are_none last_is nests without_last'.split(),
    'mcs_system/specs/System.antt': (
        'System context_part core_of no_note no_source no_thread note_part source_part '
        'thread_part'
    ).split(),
    'mcs_system/specs/WellFormed.antt': (
        'AreChains AreSources IsNotification IsServer IsSource'
    ).split(),
    'mcs_text/specs/Text.antt': (
        'context_name core_line source_name thread_line thread_name'
    ).split(),
    'mcs_ticks/specs/Capped.antt': 'one_more'.split(),
    'mcs_ticks/specs/Queue.antt': 'first_of_greatest'.split(),
    'mcs_verdict/specs/Account.antt': 'since_of'.split(),
    'mcs_verdict/specs/Later.antt': 'later_moment'.split(),
    'mcs_ever_found/specs/laws/Never.antt': 'has_lost_of'.split(),
    'mcs_verdict_laws/specs/laws/Horizons.antt': 'has_miss_of'.split(),
    'mcs_window/specs/Views.antt': 'AreShownBefore views_in'.split(),
}

# by module of the library and name, as that module writes it: two modules may use one name for different things
WORDS = {
    'std.Prelude': {
        '[]': 'the empty list',
        'All': 'the claim that this holds for each element',
        'AllPairs': 'the claim that this holds for each element and each later one',
        'bit_and': 'the bits of both numbers',
        'bit_or': 'the bits of either number',
        'Bool': '`true` or `false`, a computed value; `IsTrue` makes a claim of it',
        'codes': 'the bytes of a text',
        'count_by': 'the number of elements for which this is `true`',
        'decimal': 'the decimal digits of a number, as bytes',
        'drop': 'the list without its first n elements',
        'Err': 'the fault of a call that failed',
        'false': 'no',
        'filter': 'the elements for which this is `true`',
        'find': 'the first element for which this is `true`, or `None`',
        'flat_map': 'the lists that this makes of the elements, one after another',
        'fold': '`fold f a xs`: `a`, changed by `f` with each element in order',
        'get_or': '`get_or xs n a`: the element with index `n`, or `a` past the end',
        'IfErr': '`IfErr result P`: if the call returns `Err e`, `P e` holds',
        'IfOk': '`IfOk result P`: if the call returns `Ok x`, `P x` holds',
        'if◌then◌else◌': 'the first value if the condition is `true`, else the second',
        'is_err': 'whether the call failed',
        'is_ok': 'whether the call succeeded',
        'is_some': 'whether there is a value',
        'IsOk': 'the claim that the call succeeded',
        'IsTrue': 'the claim that this is `true`',
        'length': 'the number of elements of a list',
        'List': 'a list of values of this type',
        'map': 'each element changed',
        'max': 'the larger of two numbers',
        'min': 'the smaller of two numbers',
        'nat_eq': 'whether two numbers are equal, computed',
        'nat_le': 'whether the first number is at most the second, computed',
        'nat_lt': 'whether the first number is less, computed',
        'neg_ℤ': 'the same number below 0',
        'negsuc': 'an integer below 0',
        'None': 'no value',
        'not': 'the other of `true` and `false`',
        'Ok': 'the result of a call that succeeded',
        'OnOk': '`OnOk result C`: if the call returns `Ok`, `C` holds',
        'Option': '`Some x` or `None`',
        'option_and_then': 'the result of this for the value, or `None`',
        'option_map': 'the changed value, or `None`',
        'option_to_list': 'a list of the value, or the empty list',
        'pos': 'an integer of at least 0',
        'position': 'the index of the first element for which this is `true`, or `None`',
        'Result': '`Ok x` or `Err e`',
        'reverse': 'the elements in the other order',
        'set': '`set xs n a`: the list with `a` at index `n`',
        'slice_get': '`slice_get xs n`: the element with index `n`, or `None` past the end',
        'slice_set': '`slice_set xs n a`: the list with `a` at index `n`',
        'Some': 'this value',
        'string_bytes': 'the bytes of a text',
        'suc': 'the next number',
        'sum': 'the sum of a list of numbers',
        'take': 'the first n elements',
        'true': 'yes',
        'unwrap_or': 'the value, or else this',
        'vec_len': 'the length of a `Vec`',
        'zero': '0',
        'ℕ': 'a number: 0, 1, 2 and so on, with no greatest',
        'ℤ': 'an integer',
        '◌%◌': 'remainder of a division',
        '◌&&◌': 'both, computed',
        '◌*◌': 'product',
        '◌++◌': 'one list after another',
        '◌+◌': 'sum',
        '◌-◌': 'difference; 0 if it would be below 0',
        '◌/◌': 'quotient, rounded down',
        '◌<◌': 'the claim that the first is less',
        '◌==◌': 'whether two numbers are equal, computed',
        '◌^◌': 'power',
        '◌||◌': 'either, computed',
        '◌∷◌': 'a list from its first element and the rest',
        '◌≡◌': 'the claim that both are equal',
        '◌≢◌': 'the claim that they differ',
        '◌≤◌': 'the claim that the first is at most the second',
        '◌⊎◌': 'the claim that one or the other holds',
    },
    'clap.Words': {
        'Text': 'bytes',
    },
    'serde_json.Data': {
        'array': 'a JSON array of these items',
        'item': 'an array from its first item, and the rest',
        'Items': 'the values of a JSON array',
        'no_items': 'an array without items',
        'member': 'an object from its first member, a key and its value, and the rest',
        'Members': 'the keys of a JSON object with their values',
        'negative': 'a whole number below 0, by its distance from 0',
        'no_members': 'an object without members',
        'number': 'a JSON number',
        'object': 'a JSON object of these members',
        'string': 'a JSON text',
        'unsigned': 'a number of at least 0',
    },
    'serde_json.Written': {
        'comma_if': 'a comma if this is `true`, else nothing',
        'compact_text': 'the JSON text of a value without fractions, without spaces, as the crate `serde_json` defines it',
    },
    'std.Arc': {
        'arc_value': 'the shared value',
    },
    'std.Char': {
        'digit_value': 'the value of a digit or a letter, from 0 for `0` to 35 for `z`; 36 for any other character',
    },
    'std.Cmp.Lexicographic': {
        'pointwise': 'whether two lists have one length and their elements agree in pairs; with `nat_eq`, whether they are equal',
    },
    'std.Fmt': {
        'signed_decimal': 'decimal digits, after a minus if the number is below 0',
    },
    'std.Io': {
        'ReadsAtMost': 'a read returns at most as many bytes as the buffer has room for',
        'WritesAtMost': 'a write takes at most the bytes that it was given',
    },
    'std.Io.KnownBytes': {
        'Appends': 'if the bytes of a target are known, exactly these bytes were appended',
        'Consumes': 'if the remaining bytes of a source are known, exactly these were taken from the front',
        'IsAtEnd': 'if the remaining bytes are known, there are none',
        'Keeps': 'if the bytes are known, they are unchanged',
        'ReadConsumes': 'a read that succeeds takes from the front what it puts into the buffer, and nothing only at the end; a read that fails takes nothing',
        'WriteAppends': 'a write that succeeds appends as many first bytes as it returns; a write that fails appends nothing',
    },
    'std.List': {
        'AllByRecursion': 'the claim that this holds for each element',
        'filter': 'the elements for which this is `true`',
        'filter_map': 'the results of this for each element, without the `None`s',
        'flat_map': 'the lists that this makes of the elements, one after another',
        'FoldsTo': '`FoldsTo R a xs b`: steps lead from `a` to `b`, one for each element, each an `R`',
        'join_with_byte': 'these texts, with this byte between neighbours',
        'list_all': 'whether this is `true` for each element',
        'list_any': 'whether this is `true` for some element',
        'range_with_len': '`range_with_len a n`: the `n` numbers from `a` on',
        'reduce': 'the value when two neighbours at a time are combined; `None` for an empty list',
        'slice_get': 'the element with this index, or `None`',
        'slice_split': 'a list cut at each element for which this is `true`',
        'sum_by': 'the sum of the numbers that this makes of the elements',
    },
    'std.Option': {
        'option_to_list': 'the value of an option as a list: of one element, or empty',
        'option_map': 'the changed value, or `None`',
        'option_or': 'the first value if there is one, else the second, if there is one',
    },
    'std.Str': {
        'all_ascii_digits': 'whether all bytes are decimal digits',
        'bytes_eq': 'whether two texts are equal, computed',
        'chars': 'the characters of a text, as numbers',
        'is_utf8': 'whether bytes are UTF-8',
    },
    'std.Str.Parse': {
        'digits_value': 'the number that these digits write, in this base',
        'without_leading_plus': 'the text without its first character, if that is `+`',
    },
    'strsim.Edits': {
        'levenshtein_row': '`levenshtein_row eq xs ys n`: the minimum number of insertions, deletions and changes from the first list to the first `n` elements of the second, as the crate `strsim` defines it',
    },
    'toml.Data': {
        'as_array': 'the array, if the value is one',
        'as_integer': 'the integer, if the value is one',
        'as_str': 'the bytes of the text, if the value is one',
        'as_table': 'the table, if the value is one',
        'Data': 'a value of a TOML file, as the crate `toml` defines it',
        'get_member': 'the value of a key, or `None`',
        'integer': 'a value that is this integer',
        'item': 'an array from its first value and the rest',
        'Items': 'the values of a TOML array',
        'member': 'a table from its first key and the rest',
        'Members': 'the keys of a TOML table with their values',
        'no_items': 'the empty array',
        'no_members': 'the empty table',
    },
    'toml.Parse': {
        'parse_document': 'the table of a text that is TOML, as the crate `toml` defines it',
    },
}
