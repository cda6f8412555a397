//! What a plain program needs for the lines of a run: a `debug` of one text on HOSTS hosts over TASKS tasks, all of which are ok.
//! It plays nothing: it knows each line beforehand, and writes them through one buffer, as a careful Rust program would.
//!
//! Usage: writer HOSTS TASKS TEXT (in TEXT `{}` stands for the host's name)
use std::io::{BufWriter, Write};

fn main() -> std::io::Result<()> {
    let words: Vec<String> = std::env::args().skip(1).collect();
    let hosts: usize = words[0].parse().expect("a number of hosts");
    let tasks: usize = words[1].parse().expect("a number of tasks");
    let (front, behind) = words[2].split_once("{}").unwrap_or((&words[2], ""));
    let is_same = !words[2].contains("{}");
    let names: Vec<String> = (0..hosts).map(|host| format!("h{host:05}")).collect();
    let mut out = BufWriter::new(std::io::stdout().lock());
    writeln!(out, r#"{{"event":"playbook_on_start","plays":1}}"#)?;
    write!(out, r#"{{"batch":0,"event":"playbook_on_play_start","hosts":["#)?;
    for (at, name) in names.iter().enumerate() {
        write!(out, r#"{}"{name}""#, if at == 0 { "" } else { "," })?;
    }
    writeln!(out, r#"],"name":"all","play":0}}"#)?;
    for task in 1..=tasks {
        writeln!(out, r#"{{"event":"playbook_on_task_start","name":"debug","place":"{task}","play":0}}"#)?;
        for name in &names {
            writeln!(out, r#"{{"event":"runner_on_start","host":"{name}","place":"{task}","play":0}}"#)?;
            write!(out, r#"{{"event":"runner_on_ok","host":"{name}","place":"{task}","play":0,"result":{{"changed":false,"failed":false,"msg":""#)?;
            let middle = if is_same { "" } else { name };
            writeln!(out, r#"{front}{middle}{behind}"}}}}"#)?;
        }
    }
    write!(out, r#"{{"event":"playbook_on_stats","stats":{{"#)?;
    for (at, name) in names.iter().enumerate() {
        write!(out, r#"{}"{name}":{{"changed":0,"failed":0,"ignored":0,"ok":{tasks},"#, if at == 0 { "" } else { "," })?;
        write!(out, r#""rescued":0,"skipped":0,"unreachable":0}}"#)?;
    }
    writeln!(out, "}}}}")?;
    writeln!(out, "PLAY RECAP")?;
    for name in &names {
        writeln!(out, "{name} : ok={tasks} changed=0 unreachable=0 failed=0 skipped=0 rescued=0 ignored=0")?;
    }
    out.flush()
}
