A: BEGIN;
A: @;