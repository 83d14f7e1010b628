# The test scripts for ctest. A script that lacks something says what and exits with 77: skipped.
#   quick   under a minute each once the archive is made; long   minutes each
#
# offer(NAME LABEL COMMAND..): a command in the repository.
function(offer name label)
    add_test(NAME ${name} COMMAND ${ARGN} WORKING_DIRECTORY ${CMAKE_CURRENT_SOURCE_DIR})
    # They build into shared directories under build/ and target/, so one at a time.
    set_tests_properties(${name} PROPERTIES LABELS ${label} SKIP_RETURN_CODE 77 RUN_SERIAL ON TIMEOUT 7200
        ENVIRONMENT "FLORINWICK_ARCHIVE=${FLORINWICK_ARCHIVE}")
endfunction()

offer(oracle quick bash -c "bash tests/oracle/build.sh && bash tests/oracle/examples.sh && bash tests/oracle/check-recorded.sh")
offer(docs quick bash docs/check.sh)
offer(records quick bash tests/records/run.sh)
offer(leaves quick bash tests/leaves/run.sh)
offer(differential long bash tests/differential/run.sh)
offer(fuzz long bash tests/fuzz/run.sh)
offer(bench long bash tests/bench/run.sh)
if(FLORINWICK_FLORIN)
    offer(callers quick ${CMAKE_COMMAND} -E env FLORIN_TEST_PARTS=callers bash tests/florin/run.sh)
    offer(florin long bash tests/florin/run.sh)
endif()
# The answers that the documents show are asked of the oracle, where it is built.
set_tests_properties(docs PROPERTIES DEPENDS oracle)
