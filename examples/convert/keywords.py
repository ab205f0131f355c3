"""Keywords of GitLab's files: which are taken, and what is said of those that are left out."""
from __future__ import annotations

import re

LEFT_OUT = {
    "environment": "there are no environments here: `resource_group` keeps two deployments apart",
    "coverage": "nothing reads figures out of traces",
    "release": "nothing is released by the server: a script does it",
    "pages": "nothing is published by the server: a script does it",
    "id_tokens": "there are no tokens for others here: set a variable of the project",
    "secrets": "there are no secrets here: set a variable of the project",
    "start_in": "a job begins as soon as it may",
    "hooks": "a runner runs nothing before the script",
}
TOP_DEFAULTS = ("before_script", "after_script", "image", "services", "cache")  # what `default` has, also at the top level
DEFAULTS = TOP_DEFAULTS + ("artifacts", "retry", "tags", "timeout", "interruptible")
TOP = TOP_DEFAULTS + ("stages", "types", "variables", "default", "workflow")
TAKEN = DEFAULTS + (
    "script", "stage", "needs", "rules", "when", "allow_failure", "resource_group", "variables", "only", "except", "parallel",
    "extends", "inherit", "trigger", "dependencies",
)
ORDER = (
    "stage", "tags", "variables", "needs", "rules", "when", "allow_failure", "retry", "timeout", "resource_group", "interruptible",
    "script",
)
CAUSES = (
    "always", "unknown_failure", "script_failure", "api_failure", "stuck_or_timeout_failure", "runner_system_failure",
    "job_execution_timeout",
)
PREDEFINED = {
    "CI", "CI_PIPELINE_SOURCE", "CI_COMMIT_REF_NAME", "CI_COMMIT_BRANCH", "CI_COMMIT_TAG", "CI_PROJECT_ID", "CI_JOB_NAME",
    "CI_JOB_STAGE", "CI_PIPELINE_ID", "CI_JOB_ID",
}
SOURCES = {
    "pushes": "push", "web": "web", "schedules": "schedule", "api": "api", "triggers": "trigger",
    "merge_requests": "merge_request_event", "external_pull_requests": "external_pull_request_event", "external": "external",
    "chat": "chat", "pipelines": "pipeline", "parent_pipelines": "parent_pipeline",
}
SOURCES |= {it.removesuffix("_event"): it for it in SOURCES.values()}  # GitLab takes the word for one as well
SOURCES_ELSEWHERE = set(SOURCES.values()) - {"push", "web", "schedule", "api", "trigger"} | {"ondemand_dast_scan"}
OF_RUNNER = re.compile(  # variables that GitLab's runner looks at
    r"GIT_(STRATEGY|DEPTH|CHECKOUT|CLEAN_FLAGS|CLONE_PATH|CLONE_EXTRA_FLAGS|FETCH_EXTRA_FLAGS|SUBMODULE_[A-Z_]+)|DOCKER_AUTH_CONFIG|CI_DEBUG_(TRACE|SERVICES)"
    r"|(GET_SOURCES|ARTIFACT_DOWNLOAD|RESTORE_CACHE|EXECUTOR_JOB_SECTION)_ATTEMPTS|RUNNER_(AFTER_)?SCRIPT_TIMEOUT|(FF|KUBERNETES)_[A-Z0-9_]+"
)
GIT_READ = ("GIT_STRATEGY", "GIT_SUBMODULE_STRATEGY")  # by ciserver-runner
SET_BY_RUNNER = {
    "CI_PROJECT_DIR", "CI_BUILDS_DIR", "CI_COMMIT_SHA", "CI_COMMIT_SHORT_SHA", "CI_COMMIT_TITLE", "CI_COMMIT_MESSAGE", "CI_COMMIT_DESCRIPTION",
    "CI_COMMIT_AUTHOR", "CI_COMMIT_TIMESTAMP", "CI_COMMIT_REF_SLUG", "CI_REPOSITORY_URL", "CI_SERVER_URL", "CI_SERVER_HOST", "CI_API_V4_URL",
    "CI_RUNNER_ID", "CI_RUNNER_DESCRIPTION", "CI_CONCURRENT_ID", "CI_JOB_STARTED_AT",
}
