//! The second program against the documents, a file to a subject, in one program.

mod common;

mod buffers;
mod counts;
mod damage;
mod exrs;
mod messages;
mod one_pass;
mod plain;
mod planned_include;
mod read_back;
mod rounds;
mod rules_carried;
mod rules_costs;
mod rules_exrs;
mod rules_exrs_paths;
mod rules_exrs_written;
mod rules_lists;
mod rules_messages;
mod rules_nobodys;
mod rules_profile;
mod rules_replies;
mod rules_rounds;
mod rules_search;
mod rules_written_replies;
mod scale;
mod series;
mod worked;
