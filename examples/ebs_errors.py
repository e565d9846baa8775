"""Hooks for botocore: each call names its account, and each refusal has the type that the service's model gives it.

With boto3:

    client = boto3.client("ebs", endpoint_url="http://127.0.0.1:8000", ..)
    ebs_errors.install(client.meta.events, "000000000001")
    try:
        client.list_snapshot_blocks(SnapshotId="snap-00000000010000000")
    except client.exceptions.ResourceNotFoundException as refusal:
        print(refusal.response["Reason"])

With aws-cli: this file's folder on PYTHONPATH, the account in EBS_ACCOUNT, and in ~/.aws/config

    [plugins]
    cli_legacy_plugin_path = FOLDER
    ebs = ebs_errors

with that folder once more as FOLDER, which version 2 asks for.

The program tells a refusal's type in the body of its answer, as `Type`; botocore reads it from the header `x-amzn-errortype`. An older one lets nobody set that before it
reads, so there the type is set in what it has read.
"""
import json
import os


def install(events, account):
    """Has the calls of a client or a session made by this account, twelve digits, and their refusals typed."""
    events.register("before-call.ebs", lambda params, **_: params["headers"].update({"x-ebs-account": account}))
    events.register("before-parse.ebs", hand_type_on)
    events.register("response-received.ebs", set_type)


def hand_type_on(response_dict, **_):
    if response_dict["status_code"] >= 300:
        response_dict["headers"]["x-amzn-errortype"] = json.loads(response_dict["body"])["Type"]


def set_type(response_dict, parsed_response, **_):
    if response_dict and response_dict["status_code"] >= 300:
        fields = json.loads(response_dict["body"])
        parsed_response["Error"]["Code"] = fields["Type"]
        parsed_response.setdefault("Reason", fields["Reason"])


def awscli_initialize(events):
    """What aws-cli calls of a plugin."""
    install(events, os.environ["EBS_ACCOUNT"])
