.class public La/Main;
.super La/Main;
