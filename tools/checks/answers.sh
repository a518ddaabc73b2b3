# Part of ./check-tools: generated cases at the C boundary and by the built program, compared with the other
# implementation's answers.

quietly "$tools" cases "$out/questions" "$out/answers" "$seed" "$count"
through "$out/cases" "$out/questions" "$out/answers"
cases=$(cat "$out/number")
say "answers: $cases generated cases (seed $seed) through the static library in C"

quietly build_program cases
through crates/cases/out/cases "$out/questions" "$out/answers"
say "answers: $cases generated cases (seed $seed) through the built program"
